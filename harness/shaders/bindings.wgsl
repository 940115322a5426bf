// Binding arrays: of textures, of samplers, of buffers; one of them in use by nobody.
enable wgpu_binding_array;

override LAYERS: u32 = 4u;

struct Band {
    edges: vec2<f32>,
    gain: f32,
}

struct Bands {
    count: u32,
    list: array<Band, 8>,
}

struct UnusedBands {
    list: array<Bands, 2>,
}

@group(0) @binding(0) var spectra: binding_array<texture_2d<f32>, 5>;
@group(0) @binding(1) var samplers: binding_array<sampler>;
@group(0) @binding(2) var<storage, read> fittings: binding_array<Bands, 4>;
@group(0) @binding(3) var unused_volumes: binding_array<texture_3d<f32>>;
@group(0) @binding(4) var<storage, read> unused_fittings: binding_array<UnusedBands, 2>;
@group(1) @binding(0) var<storage, read_write> out: array<vec4<f32>>;

fn gain(fitting: u32, at: f32) -> f32 {
    for (var band = 0u; band < fittings[fitting].count; band++) {
        let edges = fittings[fitting].list[band].edges;
        if at >= edges.x && at < edges.y {
            return fittings[fitting].list[band].gain;
        }
    }
    return 1.0;
}

fn unused_gain(fitting: u32) -> f32 {
    return unused_fittings[fitting].list[0].list[1].gain;
}

@compute @workgroup_size(32)
fn main(@builtin(global_invocation_id) at: vec3<u32>) {
    let place = vec2<f32>(at.xy) / 32;
    let value = textureSampleLevel(spectra[at.z % LAYERS], samplers[0], place, 0.0);
    out[at.x] = value * gain(at.z % 4u, place.x);
}
