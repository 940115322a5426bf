// Structs in structs, pointers as arguments, private state with values, and a chain of types that ends nowhere.

alias Sample = f32;
alias Stereo = vec2<Sample>;
alias UnusedSurround = array<Stereo, 3>;

struct Biquad {
    feed: vec3<f32>,
    back: vec2<f32>,
}

struct Section {
    filter_: Biquad,
    state: array<Stereo, 2>,
}

struct Ear {
    sections: array<Section, 4>,
    gain: f32,
}

struct Pair {
    left: Ear,
    right: Ear,
}

struct UnusedLeaf {
    a: u32,
    b: vec4<i32>,
}

struct UnusedBranch {
    leaf: UnusedLeaf,
    leaves: array<UnusedLeaf, 5>,
}

struct UnusedTree {
    branches: array<UnusedBranch, 2>,
    surround: UnusedSurround,
}

@group(0) @binding(0) var<storage, read_write> pair: Pair;
@group(0) @binding(1) var<storage, read_write> sound: array<Stereo>;
@group(0) @binding(2) var<storage, read> unused_tree: UnusedTree;

const SILENCE = Stereo();
const QUIET = Biquad(vec3<f32>(1, 0, 0), vec2<f32>());

var<private> scratch: Section = Section(QUIET, array<Stereo, 2>(SILENCE, SILENCE));
var<private> unused_scratch: UnusedBranch;

fn step(section: ptr<function, Section>, input: Sample) -> Sample {
    let filter_ = (*section).filter_;
    let state = (*section).state[0];
    let output = filter_.feed.x * input + state.x;
    (*section).state[0] = Stereo(
        filter_.feed.y * input - filter_.back.x * output + state.y,
        filter_.feed.z * input - filter_.back.y * output,
    );
    return output;
}

fn swap(value: ptr<private, Section>) {
    let kept = (*value).state[0];
    (*value).state[0] = (*value).state[1];
    (*value).state[1] = kept;
}

fn through(ear: Ear, input: Sample) -> Sample {
    var value = input;
    for (var at = 0; at < 4; at++) {
        var section = ear.sections[at];
        value = step(&section, value);
    }
    return value * ear.gain;
}

fn unused_depth(tree: UnusedBranch) -> u32 {
    return tree.leaves[2].a + tree.leaf.a;
}

fn unused_sum() -> u32 {
    return unused_depth(unused_tree.branches[1]) + unused_depth(unused_scratch);
}

@compute @workgroup_size(1)
fn main(@builtin(global_invocation_id) at: vec3<u32>) {
    let input = sound[at.x];
    swap(&scratch);
    switch at.y {
        case 0u: {
            sound[at.x].x = through(pair.left, input.x);
        }
        case 1u, 2u: {
            sound[at.x].y = through(pair.right, input.y);
        }
        default: {
            sound[at.x] = scratch.state[1];
        }
    }
}
