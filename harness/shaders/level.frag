#version 450
// A level bar, in GLSL.

layout(location = 0) in vec2 at;
layout(location = 1) flat in int channel;
layout(location = 0) out vec4 colour;

layout(set = 0, binding = 0) uniform texture2D levels;
layout(set = 0, binding = 1) uniform sampler levels_sampler;
layout(set = 0, binding = 2) uniform textureCube unused_sky;
layout(set = 0, binding = 3) uniform Colours {
    vec4 quiet;
    vec4 loud;
    mat4 turn;
} colours;

const float MARGIN = 0.05;
const vec3 UNUSED_GREY = vec3(0.5);

vec4 bar(float level) {
    return level > at.y + MARGIN ? mix(colours.quiet, colours.loud, level) : vec4(0.0);
}

vec4 unused_sky_at(vec3 way) {
    return texture(samplerCube(unused_sky, levels_sampler), way);
}

void main() {
    float level = texture(sampler2D(levels, levels_sampler), vec2(at.x, float(channel))).r;
    colour = colours.turn * bar(level);
}
