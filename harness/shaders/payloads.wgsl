// Ray tracing stages with payloads: the payload that a stage receives is named by its entry point.
enable wgpu_ray_tracing_pipeline;

struct Loudness {
    value: f32,
    bounces: u32,
}

struct UnusedLoudness {
    value: vec4<f32>,
}

var<private> unused_before: UnusedLoudness;
var<ray_payload> unused_sent: vec3<f32>;
var<ray_payload> sent: Loudness;
var<private> unused_between: array<f32, 3>;
var<incoming_ray_payload> received: Loudness;

@group(0) @binding(0) var room: acceleration_structure;

@ray_generation
fn send(@builtin(ray_invocation_id) at: vec3<u32>) {
    sent = Loudness();
    traceRay(room, RayDesc(0u, 0xFFu, 0.01, 100.0, vec3<f32>(at), vec3<f32>(0.0, 1.0, 0.0)), &sent);
}

@closest_hit
@incoming_payload(received)
fn reflect_() {
    received.value = received.value * 0.5;
    received.bounces = received.bounces + 1u;
}

@miss
@incoming_payload(received)
fn lose() {
    received.value = 0.0;
}
