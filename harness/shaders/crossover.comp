#version 450
// A crossover of two bands, in GLSL: a front end that leaves its module as it made it.

layout(local_size_x = 64) in;

layout(constant_id = 0) const float EDGE = 0.25;
layout(constant_id = 1) const int UNUSED_ORDER = 4;

const float LOSS = 0.5;
const vec2 UNUSED_EDGES = vec2(0.1, 0.4);
const int UNUSED_COUNT = 3;

struct Bands {
    float low;
    float high;
};

struct UnusedBands {
    Bands bands[3];
    mat3 mix_;
};

layout(set = 0, binding = 0) readonly buffer Input {
    float samples[];
} sound;

layout(set = 0, binding = 1) buffer Output {
    Bands bands[];
} result;

layout(set = 0, binding = 2) uniform UnusedSettings {
    vec4 gains;
    ivec2 order;
} unused_settings;

shared float window[64];
shared vec2 unused_window[32];

float lowpass(float now, float before) {
    return mix(before, now, EDGE) * LOSS;
}

float unused_highpass(float now, float before) {
    UnusedBands all;
    all.bands[1].low = now - before;
    return all.bands[1].low * unused_settings.gains.x;
}

void main() {
    uint lane = gl_LocalInvocationID.x;
    window[lane] = sound.samples[gl_GlobalInvocationID.x];
    barrier();
    float low = lowpass(window[lane], window[max(lane, 1u) - 1u]);
    result.bands[gl_GlobalInvocationID.x].low = low;
    result.bands[gl_GlobalInvocationID.x].high = window[lane] - low;
}
