/* Small functions over integers, from which bench/pairs.py makes pairs: each is a piece of arithmetic,
 * of bit handling or of control that compilers meet every day. */
#include <stdint.h>
#include <stdbool.h>

typedef uint8_t u8; typedef uint16_t u16; typedef uint32_t u32; typedef uint64_t u64;
typedef int8_t i8; typedef int16_t i16; typedef int32_t i32; typedef int64_t i64;

u32 average_floor(u32 a, u32 b) { return (a & b) + ((a ^ b) >> 1); }
u32 average_wide(u32 a, u32 b) { return (u32)(((u64)a + b) / 2); }
u32 is_power_of_two(u32 x) { return x != 0 && (x & (x - 1)) == 0; }
u32 lowest_bit(u32 x) { return x & -x; }
u32 clear_lowest(u32 x) { return x & (x - 1); }
u32 round_up_8(u32 x) { return (x + 7) & ~7u; }
u32 round_up_power(u32 x) { x--; x |= x >> 1; x |= x >> 2; x |= x >> 4; x |= x >> 8; x |= x >> 16; return x + 1; }
i32 absolute(i32 x) { return x < 0 ? -x : x; }
i32 absolute_mask(i32 x) { i32 m = x >> 31; return (x + m) ^ m; }
i32 sign(i32 x) { return (x > 0) - (x < 0); }
i32 minimum(i32 a, i32 b) { return a < b ? a : b; }
i32 maximum(i32 a, i32 b) { return a > b ? a : b; }
u8 minimum_8(u8 a, u8 b) { return a < b ? a : b; }
i32 clamp(i32 x) { if (x < 0) return 0; if (x > 255) return 255; return x; }
u8 saturating_add(u8 a, u8 b) { u8 s = a + b; return s < a ? 255 : s; }
u8 saturating_sub(u8 a, u8 b) { return a > b ? a - b : 0; }
u32 rotate_left(u32 x, u32 n) { n &= 31; return (x << n) | (x >> ((32 - n) & 31)); }
u16 swap_bytes(u16 x) { return (u16)((x << 8) | (x >> 8)); }
u32 swap_halves(u32 x) { return (x << 16) | (x >> 16); }
u8 reverse_bits(u8 b) { b = (b & 0xF0) >> 4 | (b & 0x0F) << 4; b = (b & 0xCC) >> 2 | (b & 0x33) << 2; return (b & 0xAA) >> 1 | (b & 0x55) << 1; }
u8 count_bits(u8 x) { x = (x & 0x55) + ((x >> 1) & 0x55); x = (x & 0x33) + ((x >> 2) & 0x33); return (x & 0x0F) + (x >> 4); }
u8 parity(u8 x) { x ^= x >> 4; x ^= x >> 2; x ^= x >> 1; return x & 1; }
u32 times_three(u32 x) { return x + x + x; }
u32 times_nine(u32 x) { return x * 9; }
u32 times_fifteen(u32 x) { return (x << 4) - x; }
u32 half(u32 x) { return x / 2; }
i32 half_signed(i32 x) { return x / 2; }
u32 eighth(u32 x) { return x / 8; }
u8 tenth(u8 x) { return x / 10; }
u8 rest_of_ten(u8 x) { return x % 10; }
u32 rest_of_16(u32 x) { return x % 16; }
i32 rest_of_4(i32 x) { return x % 4; }
bool is_even(u32 x) { return x % 2 == 0; }
bool is_odd_signed(i32 x) { return x % 2 != 0; }
bool in_range(i32 x) { return x >= 10 && x < 20; }
bool out_of_range(u32 x) { return x < 5 || x > 9; }
bool same_sign(i32 a, i32 b) { return (a ^ b) >= 0; }
bool is_letter(u8 c) { return (c >= 'a' && c <= 'z') || (c >= 'A' && c <= 'Z'); }
bool is_digit(u8 c) { return c >= '0' && c <= '9'; }
u8 to_upper(u8 c) { return c >= 'a' && c <= 'z' ? c - 32 : c; }
u8 hex_digit(u8 n) { n &= 15; return n < 10 ? '0' + n : 'a' + (n - 10); }
u32 xor_swap(u32 a, u32 b) { a ^= b; b ^= a; a ^= b; return a - b; }
u32 add_by_parts(u32 a, u32 b) { return (a ^ b) + 2 * (a & b); }
u32 or_by_sum(u32 a, u32 b) { return (a & ~b) + b; }
u32 sub_not(u32 a, u32 b) { return ~(~a + b); }
u32 negate_twice(u32 x) { return -(-x); }
u32 not_neg(u32 x) { return ~(-x); }
u32 select_mask(bool c, u32 a, u32 b) { u32 m = -(u32)c; return (a & m) | (b & ~m); }
i32 choose(i32 op, i32 a, i32 b) { switch (op) { case 0: return a + b; case 1: return a - b; case 2: return a & b; case 3: return a | b; default: return 0; } }
u32 days(u32 month) { switch (month) { case 2: return 28; case 4: case 6: case 9: case 11: return 30; default: return 31; } }
u8 grade(u8 points) { if (points >= 90) return 1; if (points >= 75) return 2; if (points >= 50) return 3; return 4; }
i32 nested(i32 a, i32 b) { if (a > 0) { if (b > 0) return 1; return 2; } if (b > 0) return 3; return 4; }
i32 both_ways(bool c, i32 x) { i32 y; if (c) y = x + 1; else y = x + 1; return y; }
i32 dead_branch(i32 x) { if (x > 5) { if (x < 3) return 7; return x; } return 0; }
u8 sum_to(u8 n) { u8 s = 0; for (u8 i = 0; i < (n & 3); i++) s += i; return s; }
u8 power(u8 x) { u8 r = 1; for (u8 i = 0; i < 3; i++) r *= x; return r; }
u8 divide_steps(u8 a, u8 b) { u8 q = 0; if (b == 0) return 0; while (a >= b && q < 3) { a -= b; q++; } return q; }
u8 greatest_divisor(u8 a, u8 b) { for (u8 i = 0; i < 3 && b != 0; i++) { u8 t = a % b; a = b; b = t; } return a; }
u32 hash_step(u32 h, u8 c) { return (h ^ c) * 16777619u; }
u32 shift_mix(u32 x) { x ^= x << 13; x ^= x >> 17; x ^= x << 5; return x; }
u64 widen(u32 a, u32 b) { return ((u64)a << 32) | b; }
u32 high_part(u64 x) { return (u32)(x >> 32); }
i64 sign_extend_24(u32 x) { return ((i32)(x << 8)) >> 8; }
i8 narrow(i32 x) { return (i8)x; }
u16 colour(u8 r, u8 g, u8 b) { return (u16)(((r >> 3) << 11) | ((g >> 2) << 5) | (b >> 3)); }
u32 blend(u8 a, u8 b, u8 t) { return (a * (255u - t) + b * t) / 255u; }
u32 distribute(u32 a, u32 b, u32 c) { return a * b + a * c; }
u8 distribute_8(u8 a, u8 b, u8 c) { return a * b + a * c; }
u32 associate(u32 a, u32 b, u32 c) { return (a + b) + c - b; }
i32 order(i32 a, i32 b, i32 c) { i32 t; if (a > b) { t = a; a = b; b = t; } if (b > c) { t = b; b = c; c = t; } if (a > b) { t = a; a = b; b = t; } return b; }
bool carry(u32 a, u32 b) { return a + b < a; }
bool overflow(i32 a, i32 b) { i32 s = (i32)((u32)a + (u32)b); return ((a ^ s) & (b ^ s)) < 0; }
u8 gray(u8 x) { return x ^ (x >> 1); }
u8 ungray(u8 x) { x ^= x >> 4; x ^= x >> 2; x ^= x >> 1; return x; }
u32 mask_of(u32 n) { return n >= 32 ? ~0u : (1u << n) - 1; }
bool has_zero_byte(u32 x) { return ((x - 0x01010101u) & ~x & 0x80808080u) != 0; }
u32 spread(u8 x) { u32 y = x; y = (y | y << 8) & 0x00FF00FF; y = (y | y << 4) & 0x0F0F0F0F; return y; }
void swap(u32 *a, u32 *b) { u32 t = *a; *a = *b; *b = t; }
void copy(u8 *to, u8 *from) { *to = *from; }
void copy_twice(u16 *to, u16 *from) { *to = *from; *to = *from; }
u32 sum_of_two(u32 *a, u32 *b) { return *a + *b; }
u32 load_twice(u32 *a) { return *a + *a; }
u32 load_around_store(u32 *a, u32 *b) { u32 x = *a; *b = 5; return x + *a; }
u32 store_then_load(u32 *a, u32 x) { *a = x; return *a * 2; }
void store_twice(u16 *a, u16 x) { *a = x; *a = x + 1; }
void store_what_is_there(u32 *a) { *a = *a; }
void increment(u8 *a) { *a = *a + 1; }
void increment_twice(u16 *a) { *a += 1; *a += 1; }
u8 second(u8 *a) { return a[1]; }
u32 ends(u16 *a) { return a[0] + a[3]; }
void reverse_pair(u8 *a) { u8 t = a[0]; a[0] = a[1]; a[1] = t; }
u8 at(u8 *a, u8 i) { return a[i & 3]; }
void put_at(u8 *a, u8 i, u8 x) { a[i & 3] = x; }
u8 put_and_get(u8 *a, u8 i, u8 x) { a[i & 1] = x; return a[i & 1]; }
u32 local_array(u32 x) { u32 a[2]; a[0] = x; a[1] = x + 1; return a[0] * a[1]; }
u8 local_table(u8 i) { u8 a[4]; a[0] = 3; a[1] = 1; a[2] = 4; a[3] = 1; return a[i & 3]; }
u32 halves(u32 *a) { u16 *h = (u16 *)a; return h[0] | (u32)h[1] << 16; }
u32 through_bytes(u32 x) { u8 a[4]; *(u32 *)a = x; return a[0] + a[3]; }
u8 *advance(u8 *a, bool c) { return c ? a + 1 : a; }
u8 *forth_and_back(u8 *a) { return a + 2 - 1; }
u32 either_load(bool c, u32 *a, u32 *b) { return c ? *a : *b; }
void either_store(bool c, u32 *a, u32 x) { if (c) *a = x; else *a = x; }
u32 load_in_branches(bool c, u32 *a) { if (c) return *a + 1; return *a + 2; }
void smallest_first(u8 *a, u8 *b) { if (*b < *a) { u8 t = *a; *a = *b; *b = t; } }
u8 sum_bytes(u8 *a) { u8 s = 0; for (u8 i = 0; i < 3; i++) s += a[i]; return s; }
void fill(u8 *a, u8 x) { for (u8 i = 0; i < 3; i++) a[i] = x; }
u8 pointer_of_pointer(u8 **a) { return **a; }
void set_through(u8 **a, u8 x) { **a = x; **a = x; }
void exchange_pointers(u8 **a, u8 **b) { u8 *t = *a; *a = *b; *b = t; }
