// The beam as a cone of triangles: a task stage that picks rings, a mesh stage that draws them.
enable wgpu_mesh_shader;

override SIDES: u32 = 8u;
override CORNERS: u32 = SIDES * 2u;
override UNUSED_RINGS: u32 = CORNERS + 1u;

const TURN = 6.28318530718;
const NEAR: f32 = 0.1;
const UNUSED_FAR: f32 = 10.0;

struct Rings {
    width: f32,
    first: u32,
}

struct Corner {
    @builtin(position) position: vec4<f32>,
    @location(0) colour: vec4<f32>,
}

struct Side {
    @builtin(triangle_indices) corners: vec3<u32>,
    @builtin(cull_primitive) hidden: bool,
    @location(1) @per_primitive shade: vec4<f32>,
}

struct Cone {
    @builtin(vertices) vertices: array<Corner, 16>,
    @builtin(primitives) primitives: array<Side, 8>,
    @builtin(vertex_count) vertex_count: u32,
    @builtin(primitive_count) primitive_count: u32,
}

struct UnusedRing {
    rings: Rings,
    corners: array<vec4<f32>, 2>,
}

@group(0) @binding(0) var<uniform> unused_ring: UnusedRing;
var<private> unused_turn: f32 = TURN;
var<task_payload> rings: Rings;
var<workgroup> cone: Cone;
var<workgroup> unused_corners: array<f32, UNUSED_RINGS>;

fn around(at: u32) -> vec4<f32> {
    let angle = TURN * f32(at) / f32(SIDES);
    return vec4<f32>(cos(angle) * rings.width, sin(angle) * rings.width, NEAR, 1.0);
}

fn unused_around(at: u32) -> vec4<f32> {
    return around(at) * UNUSED_FAR * unused_turn;
}

@task
@payload(rings)
@workgroup_size(1)
fn pick() -> @builtin(mesh_task_size) vec3<u32> {
    rings.width = 0.5;
    rings.first = 0u;
    return vec3<u32>(1u, 1u, 1u);
}

@fragment
fn shade(corner: Corner, @location(1) @per_primitive shade: vec4<f32>) -> @location(0) vec4<f32> {
    return corner.colour * shade;
}

@mesh(cone)
@payload(rings)
@workgroup_size(SIDES)
fn draw(@builtin(local_invocation_index) lane: u32) {
    cone.vertex_count = CORNERS;
    cone.primitive_count = SIDES;
    cone.vertices[lane].position = around(lane + rings.first);
    cone.vertices[lane].colour = vec4<f32>(1.0);
    cone.primitives[lane].corners = vec3<u32>(lane, lane + 1u, lane + SIDES);
    cone.primitives[lane].hidden = false;
    cone.primitives[lane].shade = vec4<f32>(0.5);
}
