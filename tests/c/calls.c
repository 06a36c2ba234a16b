/* The operations of the answering program, and the functions of the library that they ask for. */
#include "calls.h"

/* An argument of the request that is being answered, by the place of its first word. */
#define FLOAT(place) float_at(r, place)
#define POINT(place) point_at(r, place)
#define INTERVAL(place) interval_at(r, place)
#define RECT(place) rect_at(r, place)
#define VECTOR(place) vector_at(r, place)
#define UV(place) uv_at(r, place)
#define YES(place) yes_at(r, place)
#define NUMBER(place) number_at(r, place)
#define WORD(place) (r->words[place])

#define ON(operation, answered) \
    case operation:             \
        *a = answered;          \
        return true;

bool call(const request *r, answer *a)
{
    switch (r->words[0]) {
        ON(1, of_point(umb_point_add(POINT(1), POINT(3))))
        ON(2, of_point(umb_point_sub(POINT(1), POINT(3))))
        ON(3, of_point(umb_point_mul(POINT(1), FLOAT(3))))
        ON(4, of_point(umb_point_ortho(POINT(1))))
        ON(5, of_real(umb_point_dot(POINT(1), POINT(3))))
        ON(6, of_real(umb_point_cross(POINT(1), POINT(3))))
        ON(7, of_point(umb_point_new(FLOAT(1), FLOAT(2))))

        ON(10, of_yes_no(umb_interval_is_empty(INTERVAL(1))))
        ON(11, of_yes_no(umb_interval_contains(INTERVAL(1), FLOAT(3))))
        ON(12, of_yes_no(umb_interval_contains_interval(INTERVAL(1), INTERVAL(3))))
        ON(13, of_yes_no(umb_interval_intersects(INTERVAL(1), INTERVAL(3))))
        ON(14, of_interval(umb_interval_union(INTERVAL(1), INTERVAL(3))))
        ON(15, of_interval(umb_interval_intersection(INTERVAL(1), INTERVAL(3))))
        ON(17, of_interval(umb_interval_from_point_pair(FLOAT(1), FLOAT(2))))

        ON(19, of_bare_rect(umb_rect_empty()))
        ON(20, of_rect(umb_rect_from_points(POINT(1), POINT(3))))
        ON(21, of_corners(umb_rect_vertices(RECT(1))))
        ON(22, of_point(umb_rect_vertex_ij(RECT(1), WORD(5), WORD(6))))
        ON(23, both(of_point(umb_rect_lo(RECT(1))), of_point(umb_rect_hi(RECT(1)))))
        ON(24, of_yes_no(umb_rect_is_empty(RECT(1))))
        ON(25, of_yes_no(umb_rect_contains_point(RECT(1), POINT(5))))
        ON(26, of_yes_no(umb_rect_contains(RECT(1), RECT(5))))
        ON(27, of_yes_no(umb_rect_intersects(RECT(1), RECT(5))))
        ON(28, of_rect(umb_rect_union(RECT(1), RECT(5))))
        ON(29, of_rect(umb_rect_intersection(RECT(1), RECT(5))))

        ON(30, of_real(umb_interpolate(FLOAT(1), FLOAT(2), FLOAT(3), FLOAT(4), FLOAT(5))))
        ON(31, of_interval(umb_update_endpoint(INTERVAL(1), YES(3), FLOAT(4))))
        ON(32, of_axes(umb_clip_bound_axis(FLOAT(1), FLOAT(2), INTERVAL(3), FLOAT(5), FLOAT(6), INTERVAL(7), YES(9),
                                           INTERVAL(10))))
        ON(33, of_rect(umb_clip_edge_bound(POINT(1), POINT(3), RECT(5), RECT(9))))
        ON(34, of_cut(umb_clip_edge(POINT(1), POINT(3), RECT(5))))
        ON(35, of_yes_no(umb_edge_intersects_rect(POINT(1), POINT(3), RECT(5))))

        ON(40, of_face(umb_face(VECTOR(1))))
        ON(41, of_face_uv(umb_xyz_to_face_uv(VECTOR(1))))
        ON(42, of_uv(umb_face_xyz_to_uv(NUMBER(1), VECTOR(2))))
        ON(43, of_vector(umb_face_uv_to_xyz(NUMBER(1), FLOAT(2), FLOAT(3))))
        ON(44, of_vector(umb_face_xyz_to_uvw(NUMBER(1), VECTOR(2))))
        ON(45, of_face(umb_uvw_face(NUMBER(1), NUMBER(2), NUMBER(3))))
        ON(46, of_vector(umb_u_axis(NUMBER(1))))
        ON(47, of_vector(umb_v_axis(NUMBER(1))))
        ON(48, of_vector(umb_unorm(NUMBER(1), FLOAT(2))))
        ON(49, of_vector(umb_vnorm(NUMBER(1), FLOAT(2))))

        ON(50, of_yes_no(umb_sum_equal(FLOAT(1), FLOAT(2), FLOAT(3))))
        ON(51, of_yes_no(umb_intersects_face(VECTOR(1))))
        ON(52, of_yes_no(umb_intersects_opposite_edges(VECTOR(1))))
        ON(53, of_axis(umb_exit_axis(VECTOR(1))))
        ON(54, of_uv(umb_exit_point(VECTOR(1), NUMBER(4))))
        ON(55, of_face(umb_next_face(NUMBER(1), UV(2), NUMBER(4), VECTOR(5), NUMBER(8))))
    }
    return false;
}
