// Echoes of a room, by ray queries: how far a sound goes until it meets a wall.
enable wgpu_ray_query;

override BOUNCES: u32 = 3u;

const FAR = 50.0;
const SPEED = 343.0;

struct Echo {
    delay: f32,
    wall: u32,
}

struct UnusedRoom {
    size: vec3<f32>,
    walls: array<Echo, 6>,
}

@group(0) @binding(0) var room: acceleration_structure;
@group(0) @binding(1) var<storage, read_write> echoes: array<Echo>;
@group(0) @binding(2) var unused_room: acceleration_structure;
@group(0) @binding(3) var<storage, read> unused_rooms: array<UnusedRoom>;

fn hit(origin: vec3<f32>, way: vec3<f32>) -> RayIntersection {
    var query: ray_query;
    rayQueryInitialize(&query, room, RayDesc(0u, 0xFFu, 0.01, FAR, origin, way));
    while (rayQueryProceed(&query)) {}
    return rayQueryGetCommittedIntersection(&query);
}

fn unused_hit() -> bool {
    var query: ray_query;
    rayQueryInitialize(&query, unused_room, RayDesc(4u, 0xFFu, 0.1, 1.0, vec3<f32>(), unused_rooms[0].size));
    return rayQueryProceed(&query);
}

@compute @workgroup_size(1)
fn trace(@builtin(global_invocation_id) at: vec3<u32>) {
    var origin = vec3<f32>();
    var way = normalize(vec3<f32>(at) + vec3<f32>(0.5));
    var far = 0.0;
    for (var bounce = 0u; bounce < BOUNCES; bounce++) {
        let found = hit(origin, way);
        if found.kind == RAY_QUERY_INTERSECTION_NONE {
            break;
        }
        far += found.t;
        origin += way * found.t;
        way = -way;
        echoes[at.x] = Echo(far / SPEED, found.instance_index);
    }
}
