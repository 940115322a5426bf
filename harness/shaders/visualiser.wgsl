// Shows the spectrum as a waterfall, and the beam as a ring around the head.

override COLUMNS: u32 = 128;
override CONTRAST: f32 = 1.5;
override RING: bool = true;
override UNUSED_GRID: i32 = 8;

const CORNERS = array<vec2<f32>, 4>(
    vec2<f32>(-1.0, -1.0),
    vec2<f32>(1.0, -1.0),
    vec2<f32>(-1.0, 1.0),
    vec2<f32>(1.0, 1.0),
);
const COLD = vec3(0.05, 0.1, 0.3);
const WARM = vec3(1.0, 0.6, 0.1);
const EDGE: f32 = 0.02;
const UNUSED_TINT = vec4(1, 1, 1, 0.5);

struct Corner {
    @builtin(position) position: vec4<f32>,
    @location(0) at: vec2<f32>,
    @location(1) @interpolate(flat) column: u32,
}

struct Pixel {
    @location(0) colour: vec4<f32>,
    @location(1) mask: u32,
}

struct View {
    turn: mat4x4<f32>,
    centre: vec2<f32>,
    zoom: f32,
}

struct UnusedLight {
    place: vec3<f32>,
    power: f32,
}

@group(0) @binding(0) var<uniform> view: View;
@group(0) @binding(1) var waterfall: texture_2d<f32>;
@group(0) @binding(2) var history: texture_2d_array<f32>;
@group(0) @binding(3) var smooth_sampler: sampler;
@group(0) @binding(4) var head: texture_depth_2d;
@group(0) @binding(5) var edge_sampler: sampler_comparison;
@group(0) @binding(6) var mask: texture_multisampled_2d<u32>;
@group(0) @binding(7) var picture: texture_storage_2d<rgba8unorm, write>;
@group(0) @binding(8) var<uniform> unused_light: UnusedLight;
@group(0) @binding(9) var unused_sky: texture_cube<f32>;
@group(0) @binding(10) var unused_volume: texture_3d<f32>;
@group(0) @binding(11) var unused_shadow: texture_depth_cube_array;

var<private> unused_count: i32 = 3;

fn ramp(power: f32) -> vec3<f32> {
    return mix(COLD, WARM, clamp(power, 0, 1));
}

fn ring(at: vec2<f32>) -> f32 {
    let away = length(at - view.centre);
    return smoothstep(EDGE, 0.0, abs(away - 0.5)) + fwidth(away);
}

fn unused_fog(at: vec3<f32>) -> vec4<f32> {
    let light = textureSampleLevel(unused_sky, smooth_sampler, at, 0.0);
    return light * textureSampleLevel(unused_volume, smooth_sampler, at, 0.0) + UNUSED_TINT;
}

@vertex
fn corner(@builtin(vertex_index) index: u32, @builtin(instance_index) column: u32) -> Corner {
    let at = CORNERS[index % 4u];
    let place = view.turn * vec4<f32>(at * view.zoom, 0.0, 1.0);
    return Corner(place, at, column % COLUMNS);
}

@fragment
fn pixel(corner: Corner) -> Pixel {
    let now = textureSample(waterfall, smooth_sampler, corner.at).r;
    let before = textureSampleBias(history, smooth_sampler, corner.at, corner.column, 0.5).r;
    let sharp = textureSampleGrad(waterfall, smooth_sampler, corner.at, dpdx(corner.at), dpdy(corner.at)).g;
    let near = textureGather(1, waterfall, smooth_sampler, corner.at);
    let hidden = textureSampleCompare(head, edge_sampler, corner.at, 0.5);
    var colour = ramp(pow(max(now, before) + sharp * near.x, CONTRAST)) * (1.0 - hidden);
    if RING {
        colour += vec3<f32>(ring(corner.at));
    }
    let seen = textureLoad(mask, vec2<i32>(corner.position.xy), 0);
    if seen.x == 0u {
        discard;
    }
    return Pixel(vec4<f32>(colour, 1.0), seen.x);
}

@compute @workgroup_size(8, 8)
fn paint(@builtin(global_invocation_id) at: vec3<u32>) {
    let size = textureDimensions(picture);
    if any(at.xy >= size) {
        return;
    }
    let levels = textureNumLevels(waterfall) + textureNumLayers(history) + textureNumSamples(mask);
    let value = textureLoad(waterfall, at.xy, 0).r / f32(levels);
    textureStore(picture, at.xy, vec4<f32>(ramp(value), 1.0));
}
