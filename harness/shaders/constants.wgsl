// Constants of abstract and of concrete types, used by functions, by other constants, and by nothing.

const ONE = 1;
const TWO = ONE + ONE;
const HALF = ONE / 2.0;
const PAIR = vec2(ONE, TWO);
const ROWS = array(PAIR, PAIR + 1, PAIR * 2);
const TURN = mat2x2(0.0, 1.0, -1.0, 0.0);
const UNUSED_CUBE = array(array(1, 2), array(3, 4));
const UNUSED_SUM = ROWS[0].x + UNUSED_CUBE[1][0];

const CONCRETE: i32 = TWO;
const UNUSED_CONCRETE: u32 = 9u;
const UNUSED_BOOL = TWO > ONE;
const UNUSED_VECTOR: vec3<f32> = vec3<f32>(HALF, 1, 2);
const UNUSED_ZERO = array<vec3<f32>, 4>();

struct Gain {
    left: f32,
    right: f32,
}

struct Fitting {
    gain: Gain,
    bands: array<Gain, 2>,
}

const FLAT = Gain(1.0, 1.0);
const FITTING = Fitting(FLAT, array<Gain, 2>(FLAT, Gain(HALF, HALF)));
const UNUSED_FITTING = Fitting(Gain(2.0, 2.0), array<Gain, 2>());
const COUNT = u32(TWO * 2);

const_assert TWO == 2;
const_assert COUNT < 5u;

var<private> gains: array<Gain, COUNT> = array<Gain, COUNT>(FLAT, FLAT, FITTING.gain, FITTING.bands[1]);
var<private> unused_gains: array<f32, TWO> = array<f32, TWO>(HALF, 2);
@group(0) @binding(0) var<storage, read_write> out: array<vec2<f32>>;

fn unused(at: i32) -> vec2<f32> {
    return UNUSED_VECTOR.xy * f32(UNUSED_CONCRETE) + vec2<f32>(ROWS[at]);
}

@compute @workgroup_size(COUNT)
fn main(@builtin(local_invocation_index) lane: u32) {
    let gain = gains[lane];
    let turned = mat2x2<f32>(TURN) * vec2<f32>(gain.left, gain.right);
    out[lane] = turned + vec2<f32>(ROWS[1]) * f32(CONCRETE);
}
