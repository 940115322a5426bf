// A radix-2 transform in workgroup memory, its inverse, and the power of its bins.

override STAGES: u32 = 7u;
override SIZE: u32 = 1u << STAGES;
override HALF: u32 = SIZE / 2u;
override SCALE: f32 = 1.0 / f32(SIZE);
override UNUSED_BINS: u32 = HALF + 1u;
override SMOOTHING: f32;

const PI = 3.141592653589793;
const FORWARD = -2 * PI;
const BACKWARD = -FORWARD;
const ZERO = vec2(0, 0);
const ONE: vec2<f32> = vec2<f32>(1, 0);
const UNUSED_ROOTS = array(vec2(1.0, 0.0), vec2(0.0, 1.0), vec2(-1.0, 0.0), vec2(0.0, -1.0));
const UNUSED_TURN = mat2x2(0.0, 1.0, -1.0, 0.0);

struct Bin {
    value: vec2<f32>,
    power: f32,
    age: u32,
}

struct Spectrum {
    count: u32,
    bins: array<Bin>,
}

struct UnusedFrame {
    bins: array<Bin, 4>,
    turn: mat2x2<f32>,
}

@group(0) @binding(0) var<storage, read> input: array<f32>;
@group(0) @binding(1) var<storage, read_write> spectrum: Spectrum;
@group(0) @binding(2) var<storage, read_write> output: array<f32>;
@group(0) @binding(3) var<uniform> unused_frame: UnusedFrame;

var<workgroup> real: array<f32, SIZE>;
var<workgroup> imaginary: array<f32, SIZE>;
var<workgroup> pairs: array<array<f32, 2>, HALF>;
var<workgroup> unused_bins: array<vec2<f32>, UNUSED_BINS>;

fn product(a: vec2<f32>, b: vec2<f32>) -> vec2<f32> {
    return vec2<f32>(a.x * b.x - a.y * b.y, a.x * b.y + a.y * b.x);
}

fn root(turn: f32, at: u32, span: u32) -> vec2<f32> {
    let angle = turn * f32(at) / f32(span);
    return vec2<f32>(cos(angle), sin(angle));
}

fn mirrored(at: u32) -> u32 {
    return reverseBits(at) >> (32u - STAGES);
}

fn butterfly(turn: f32, lane: u32, span: u32) {
    let within = lane % span;
    let low = (lane / span) * span * 2u + within;
    let high = low + span;
    let upper = vec2<f32>(real[high], imaginary[high]);
    let turned = product(upper, root(turn, within, span * 2u));
    let lower = vec2<f32>(real[low], imaginary[low]);
    real[low] = lower.x + turned.x;
    imaginary[low] = lower.y + turned.y;
    real[high] = lower.x - turned.x;
    imaginary[high] = lower.y - turned.y;
}

fn transform(turn: f32, lane: u32) {
    var span = 1u;
    loop {
        workgroupBarrier();
        butterfly(turn, lane, span);
        continuing {
            span = span * 2u;
            break if span >= SIZE;
        }
    }
    workgroupBarrier();
}

fn unused_conjugate(value: vec2<f32>) -> vec2<f32> {
    return vec2<f32>(value.x, -value.y);
}

fn unused_chirp(at: u32) -> vec2<f32> {
    return unused_conjugate(root(PI, at * at, SIZE)) + ONE;
}

@compute @workgroup_size(HALF)
fn forward(@builtin(local_invocation_index) lane: u32) {
    real[mirrored(lane)] = input[lane];
    real[mirrored(lane + HALF)] = input[lane + HALF];
    imaginary[lane] = 0;
    imaginary[lane + HALF] = 0;
    transform(FORWARD, lane);
    spectrum.bins[lane].value = vec2<f32>(real[lane], imaginary[lane]);
    spectrum.bins[lane].age = 0u;
}

@compute @workgroup_size(HALF)
fn backward(@builtin(local_invocation_index) lane: u32) {
    for (var part = 0u; part < 2u; part++) {
        let at = lane + part * HALF;
        let value = spectrum.bins[at].value;
        real[mirrored(at)] = value.x;
        imaginary[mirrored(at)] = value.y;
    }
    transform(BACKWARD, lane);
    output[lane] = real[lane] * SCALE;
    output[lane + HALF] = real[lane + HALF] * SCALE;
}

@compute @workgroup_size(64)
fn power(@builtin(global_invocation_id) at: vec3<u32>) {
    if at.x >= spectrum.count {
        return;
    }
    let bin = spectrum.bins[at.x];
    let now = dot(bin.value + ZERO, bin.value) * SCALE;
    spectrum.bins[at.x].power = mix(now, bin.power, SMOOTHING);
    spectrum.bins[at.x].age = bin.age + 1u;
}

@compute @workgroup_size(1)
fn pack(@builtin(local_invocation_index) lane: u32) {
    pairs[lane] = array<f32, 2>(input[2u * lane], input[2u * lane + 1u]);
    workgroupBarrier();
    output[lane] = pairs[lane][0] + pairs[lane][1];
}
