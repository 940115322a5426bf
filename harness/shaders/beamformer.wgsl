// A delay-and-sum beamformer for the microphones of a hearing aid, with an adaptive null and a level meter.

override MICROPHONES: u32 = 4;
override BLOCK: u32 = 64;
override TAPS: u32 = 16;
// The samples that a block needs: the block and the taps before it.
override REACH: u32 = BLOCK + TAPS;
@id(7) override RATE: f32 = 16000.0;
override FLOOR_DB: f32 = -90.0;
override UNUSED_MARGIN: u32 = REACH / 2u + MICROPHONES;

const SPEED_OF_SOUND = 343.0;
const PI = 3.14159265358979;
const TWO_PI = 2 * PI;
const DECIBEL = 20.0 / 2.302585092994;
const REFERENCE: f32 = 2e-5;
const LISTENER = vec3(0.0, 0.0, 1.0);
const UNUSED_GAINS = array(0.5, 0.25, 0.125);
const UNUSED_STEPS: array<u32, 3> = array<u32, 3>(1u, 2u, 4u);

alias Spot = vec3<f32>;

struct Microphone {
    place: Spot,
    gain: f32,
}

struct Steering {
    direction: vec3<f32>,
    step: f32,
    leak: f32,
    bands: array<vec4<f32>, 8>,
}

struct Level {
    peak: f32,
    power: f32,
}

struct Report {
    levels: array<Level, 16>,
    clipped: atomic<u32>,
}

struct UnusedFitting {
    steering: Steering,
    loudest: Level,
}

@group(0) @binding(0) var<uniform> steering: Steering;
@group(0) @binding(1) var<storage, read> microphones: array<Microphone>;
@group(0) @binding(2) var<storage, read> samples: array<f32>;
@group(0) @binding(3) var<storage, read_write> beam: array<f32>;
@group(0) @binding(4) var<storage, read_write> report: Report;
@group(0) @binding(5) var<storage, read_write> weights: array<f32>;
@group(1) @binding(0) var<uniform> unused_fitting: UnusedFitting;

var<workgroup> window: array<f32, REACH>;
var<workgroup> sums: array<f32, BLOCK>;
var<workgroup> unused_tail: array<vec2<f32>, UNUSED_MARGIN>;
var<private> seen: u32 = 0u;
var<private> unused_state: Level = Level(0.0, REFERENCE);

fn delay_of(microphone: Microphone) -> f32 {
    let way = dot(microphone.place, normalize(steering.direction + LISTENER));
    return way / SPEED_OF_SOUND * RATE;
}

fn fractional(channel: u32, at: u32, delay: f32) -> f32 {
    let whole = floor(delay);
    let part = delay - whole;
    let first = channel * REACH + at + u32(max(whole, 0.0));
    return mix(samples[first], samples[first + 1u], part);
}

fn decibels(power: f32) -> f32 {
    return max(log(power / (REFERENCE * REFERENCE)) * (DECIBEL / 2), FLOOR_DB);
}

fn unused_hann(at: u32) -> f32 {
    return 0.5 - 0.5 * cos(TWO_PI * f32(at) / f32(BLOCK));
}

fn unused_weighting(band: u32) -> vec2<f32> {
    return steering.bands[band].xy * unused_hann(band) * UNUSED_GAINS[band % 3];
}

@compute @workgroup_size(BLOCK)
fn delay_and_sum(
    @builtin(local_invocation_index) lane: u32,
    @builtin(workgroup_id) block: vec3<u32>,
) {
    var sum = 0.0;
    for (var channel = 0u; channel < MICROPHONES; channel++) {
        let microphone = microphones[channel];
        sum += microphone.gain * fractional(channel, lane, delay_of(microphone));
    }
    sums[lane] = sum / f32(MICROPHONES);
    workgroupBarrier();
    beam[block.x * BLOCK + lane] = sums[lane];
    seen += 1u;
}

@compute @workgroup_size(TAPS * 2, 1, 1)
fn adapt(@builtin(local_invocation_index) lane: u32) {
    window[lane] = beam[lane];
    workgroupBarrier();
    var error = 0.0;
    for (var tap = 0u; tap < TAPS; tap++) {
        error += weights[tap] * window[(lane + tap) % REACH];
    }
    let kept = 1.0 - steering.leak;
    weights[lane % TAPS] = kept * weights[lane % TAPS] - steering.step * error * window[lane];
}

@compute @workgroup_size(16)
fn meter(@builtin(local_invocation_index) lane: u32) {
    var level = Level();
    for (var at = lane; at < arrayLength(&beam); at += 16u) {
        level.peak = max(level.peak, abs(beam[at]));
        level.power += beam[at] * beam[at];
    }
    level.power = decibels(level.power);
    report.levels[lane] = level;
    if level.peak >= 1 {
        atomicAdd(&report.clipped, 1u);
    }
}
