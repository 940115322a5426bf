// Counts and votes: atomics of every address space, results of predeclared types, uniform loads, subgroups.

override LANES: u32 = 32u;

struct Counters {
    total: atomic<u32>,
    balance: atomic<i32>,
    bins: array<atomic<u32>, 16>,
}

struct Split {
    whole: f32,
    part: f32,
    exponent: i32,
}

struct UnusedVote {
    yes: atomic<u32>,
    no: atomic<u32>,
}

@group(0) @binding(0) var<storage, read_write> counters: Counters;
@group(0) @binding(1) var<storage, read_write> splits: array<Split>;
@group(0) @binding(2) var<storage, read_write> unused_vote: UnusedVote;

var<workgroup> turn: atomic<u32>;
var<workgroup> chosen: u32;
var<workgroup> unused_chosen: vec4<u32>;

fn take() -> bool {
    let got = atomicCompareExchangeWeak(&turn, 0u, 1u);
    return got.exchanged && got.old_value == 0u;
}

fn split(value: f32) -> Split {
    let parts = modf(value);
    let power = frexp(value);
    return Split(parts.whole, parts.fract + power.fract, power.exp);
}

fn unused_split(value: vec3<f32>) -> vec3<f32> {
    let parts = modf(value);
    let power = frexp(value);
    return parts.whole + power.fract;
}

fn unused_count() -> u32 {
    let got = atomicCompareExchangeWeak(&unused_vote.yes, 1u, 2u);
    return got.old_value + atomicLoad(&unused_vote.no);
}

@compute @workgroup_size(LANES)
fn count(@builtin(local_invocation_index) lane: u32) {
    if take() {
        chosen = lane;
    }
    let who = workgroupUniformLoad(&chosen);
    atomicAdd(&counters.total, who);
    atomicSub(&counters.balance, 1);
    atomicMax(&counters.bins[lane % 16u], lane);
    let old = atomicExchange(&counters.bins[0], 7u);
    splits[lane] = split(f32(old));
}

@compute @workgroup_size(64)
fn vote(@builtin(local_invocation_index) lane: u32) {
    let ballot = subgroupBallot(lane > 3u);
    let sum = subgroupAdd(lane);
    let first = subgroupBroadcastFirst(vec2<f32>(f32(sum)));
    atomicOr(&counters.total, ballot.x);
    splits[lane].whole = first.x + f32(subgroupShuffle(sum, 1u));
}
