// Arrays sized by overrides whose values come from other overrides, by expressions, and by nothing that is used.

override A: u32;
override B: u32 = A + 1u;
override C: u32 = B * B;
override D: u32 = select(C, A, A > 3u);
override E: i32 = -i32(D);
override UNUSED_F: u32 = D + C;
override UNUSED_G: u32 = UNUSED_F * 2u;
@id(3) override H: u32 = 3u;
@id(4) override UNUSED_I: f32 = 0.5 + f32(UNUSED_G);

var<workgroup> by_b: array<u32, B>;
var<workgroup> by_c: array<vec4<f32>, C>;
var<workgroup> by_sum: array<i32, A + C>;
var<workgroup> nested: array<array<f32, 4>, D>;
var<workgroup> unused_by_f: array<u32, UNUSED_F>;
var<workgroup> unused_by_g: array<array<u32, 3>, UNUSED_G>;
var<workgroup> unused_by_h: array<u32, H * 2>;

@group(0) @binding(0) var<storage, read_write> out: array<i32>;

fn unused_reader(at: u32) -> u32 {
    return unused_by_f[at] + unused_by_g[at][1] + unused_by_h[at];
}

@compute @workgroup_size(B, H)
fn fill(@builtin(local_invocation_index) lane: u32) {
    by_b[lane] = lane;
    by_c[lane] = vec4<f32>(f32(lane));
    by_sum[lane] = E;
    nested[lane][lane % 4] = 1;
    workgroupBarrier();
    out[lane] = i32(by_b[lane]) + i32(by_c[lane].x) + by_sum[lane] + i32(nested[lane][0]);
}
