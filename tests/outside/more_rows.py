"""Calls of the program on switch, `?:`, calls and short circuits inside expressions, arrays of two and three
dimensions. Rows as those of tests/outside/rows, which runs them. The expected values are those of C99 and of
docs/USING.md."""
from __future__ import annotations

# What is built, with how many threads and which weight, and what is refused, and where.
TEXTS = [
    (
        "int main(void){switch (1) {} switch (2) {case 1: case 2: ; default: break;} return 0;}",
        "hls: built, 1 threads, weight 9, ",
    ),
    ("int main(void){switch (1) {int x; case 1: ;}}", "hls: refused E3 at byte 27: syntax\n"),
    ("int main(void){switch (1) {case 1: int x;}}", "hls: refused E3 at byte 35: syntax\n"),
    ("int a[1][1][1][1];", "hls: refused E3 at byte 14: syntax\n"),
    ("int main(void){switch (1) {case 1: ; case 1: ;}}", "hls: refused E5 at byte 42: declared twice\n"),
    ("int main(void){switch (1) {default: ; case 1: ; default: ;}}", "hls: refused E5 at byte 48: declared twice\n"),
    ("int main(void){int x = 1; switch (1) {case x: ;}}", "hls: refused E11 at byte 43: constant out of range\n"),
    ("int main(void){switch (1) {case 1 && 1: ;}}", "hls: refused E11 at byte 32: constant out of range\n"),
    ("int main(void){switch (1) {case 1: continue;}}", "hls: refused E10 at byte 35: out of place\n"),
    ("int a[2][2]; int main(void){a[1] = 1;}", "hls: refused E6 at byte 28: wrong kind\n"),
    ("int a[2][2] = {{1, 2}, 3};", "hls: refused E6 at byte 23: wrong kind\n"),
    ("int a[2][2] = {1, {2, 3}};", "hls: refused E6 at byte 18: wrong kind\n"),
    ("int a[2][2] = {{1, 2, 3}};", "hls: refused E11 at byte 22: constant out of range\n"),
    ("int a[2][2] = {1, 2, 3, 4, 5};", "hls: refused E11 at byte 27: constant out of range\n"),
    ("int a[2][2] = {{1}, {2}, {3}};", "hls: refused E11 at byte 25: constant out of range\n"),
    ("pthread_t t[2][2];", "hls: refused E6 at byte 10: wrong kind\n"),
    ("int a[2][0];", "hls: refused E11 at byte 9: constant out of range\n"),
    ("int a[2][1][1] = {{1}};", "hls: refused E6 at byte 19: wrong kind\n"),
    (
        (
            "int f(void){return 1;} int a[2][2][2] = {{{1}, {2, 3}}}; int main(void){int x = f() && (f() ? f() : 2); "
            "return a[x][0][f() || 0];}"
        ),
        "hls: built, 1 threads, weight 17, ",
    ),
    ("void f(void){} int main(void){int x = 1 ? f() : 2;}", "hls: refused E6 at byte 42: wrong kind\n"),
    ('int main(void){int x = 1 + printf("x");}', "hls: refused E10 at byte 27: out of place\n"),
    ("int main(void){switch ((char)1) {case 4294967296: ; case 0: ;}}", "hls: refused E5 at byte 57: declared twice\n"),
    ("int main(void){switch (1) ; return 0;}", "hls: refused E3 at byte 26: syntax\n"),
    ("int main(void){switch (1) {case : ;} return 0;}", "hls: refused E3 at byte 32: syntax\n"),
    ("int main(void){switch (1) {case 1 ;} return 0;}", "hls: refused E3 at byte 34: syntax\n"),
    ("int main(void){switch (1) {;} return 0;}", "hls: refused E3 at byte 27: syntax\n"),
    ("int main(void){case 1: ; return 0;}", "hls: refused E3 at byte 15: syntax\n"),
    ("int main(void){switch (1) {case 1: {case 2: ;}} return 0;}", "hls: refused E3 at byte 36: syntax\n"),
    ("int a[2] = {};", "hls: refused E3 at byte 12: syntax\n"),
    ("int a[2][2]; int main(void){a[0][0][0][0] = 1;}", "hls: refused E3 at byte 38: syntax\n"),
    ("int main(void){int a[1][1][1][1]; return 0;}", "hls: refused E3 at byte 29: syntax\n"),
    ("int a[2][3]; int main(void){return a[1];}", "hls: refused E6 at byte 35: wrong kind\n"),
    ("int a[2][3]; int main(void){return a;}", "hls: refused E6 at byte 35: wrong kind\n"),
    ("int a[2]; int main(void){return a[1][0];}", "hls: refused E6 at byte 32: wrong kind\n"),
    ("int main(void){int a[2][2] = 1; return 0;}", "hls: refused E6 at byte 19: wrong kind\n"),
    ("int a[2][2] = 1;", "hls: refused E6 at byte 4: wrong kind\n"),
    ("int a[2] = {{1}, 2};", "hls: refused E6 at byte 12: wrong kind\n"),
    ("int a[2][2][2] = {{1, 2}};", "hls: refused E6 at byte 19: wrong kind\n"),
    ("int a[2][2][2] = {{{1, 2}, {3, 4}, {5}}};", "hls: refused E11 at byte 35: constant out of range\n"),
    ("int a[2][2] = {{1, 2}, {f()}}; int main(void){return 0;}", "hls: refused E4 at byte 24: unknown name\n"),
    ("int a[2][1 ? 2 : 3];", "hls: refused E11 at byte 9: constant out of range\n"),
    ("int a[1 && 1][2];", "hls: refused E11 at byte 6: constant out of range\n"),
    ("int x = 1 ? 2 : 3;", "hls: refused E11 at byte 8: constant out of range\n"),
    ("int f(void){return 1;} int x = f();", "hls: refused E11 at byte 31: constant out of range\n"),
    ("void f(void){} int main(void){return 1 + f();}", "hls: refused E6 at byte 41: wrong kind\n"),
    ("int f(int a){return a;} int main(void){return 1 + f();}", "hls: refused E7 at byte 50: argument count\n"),
    ("int f(int a){return a ? f(a - 1) : 0;} int main(void){return 0;}", "hls: refused E8 at byte 24: recursion\n"),
    ("int main(void){return 1 ? main() : 0;}", "hls: refused E8 at byte 26: recursion\n"),
    ("int main(void){return 1 + g();}", "hls: refused E4 at byte 26: unknown name\n"),
    ('int main(void){if (printf("a")) ; return 0;}', "hls: refused E10 at byte 19: out of place\n"),
    ("int main(void){int x = 1 ? pthread_join(1) : 2; return 0;}", "hls: refused E7 at byte 27: argument count\n"),
    ("int main(void){switch (1) {case 1 / 0: ;} return 0;}", "hls: refused E11 at byte 32: constant out of range\n"),
    ("int main(void){switch (1) {case 1: ; case (1): ;} return 0;}", "hls: refused E5 at byte 42: declared twice\n"),
    (
        "int main(void){while (1) switch (1) {case 1: continue; default: break;} break;}",
        "hls: refused E10 at byte 72: out of place\n",
    ),
    (
        "pthread_t t; void *w(void *p){return NULL;} int main(void){return 1 + w(1);}",
        "hls: refused E9 at byte 70: thread rule\n",
    ),
    ("pthread_mutex_t m[2][2];", "hls: refused E6 at byte 16: wrong kind\n"),
    (
        (
            'int main(void){int i; for (i = 0; i < 4; i++) switch (i) { case 1: printf("a\\n"); case 2: '
            'printf("b\\n"); break; default: printf("d\\n"); } return 0;}'
        ),
        "hls: built, 1 threads, weight 16, ",
    ),
    (
        (
            'int f(int a){return a + 1;} int main(void){int x = 3; printf("%d\\n", f(x) * f(f(x)) + (x > 2 ? 10 : '
            "20)); return 0;}"
        ),
        "hls: built, 1 threads, weight 20, ",
    ),
    (
        (
            'int g[2][3] = {{1, 2}, {4}}; int main(void){g[1][2] = g[0][1] + g[1][0]; printf("%d\\n", g[1][2]); return '
            "0;}"
        ),
        "hls: built, 1 threads, weight 13, ",
    ),
    ("int g[2][3]; int main(void){g[0][3] = 1; return 0;}", "hls: built, 1 threads, weight 5, "),
    ("int main(void){int a = 1; int b = a && 1; return 0;}", "hls: built, 1 threads, weight 5, "),
    ("int a[64][64]; int main(void){return 0;}", "hls: built, 1 threads, weight 2, "),
    ("int a[64][65]; int main(void){return 0;}", "hls: refused E12: one array 4160, at most 4096\n"),
    (
        "int a[4294967296][4294967296]; int main(void){return 0;}",
        "hls: refused E12: one array 18446744073709551615, at most 4096\n",
    ),
    ("int main(void){return 0;} void f(void){int a[16][16][17];}", "hls: refused E12: one array 4352, at most 4096\n"),
]

# A text, the list of a walk, the status, what is printed, and the line.
WALKS = [
    (
        (
            'int main(void){int i; for (i = 0; i < 4; i++) switch (i) { case 1: printf("a\\n"); case 2: '
            'printf("b\\n"); break; default: printf("d\\n"); } return 0;}'
        ),
        "0*1000",
        0,
        "d\na\nb\nb\nd\n",
        "hls: ended, 26 steps\n",
    ),
    (
        (
            'int f(int a){return a + 1;} int main(void){int x = 3; printf("%d\\n", f(x) * f(f(x)) + (x > 2 ? 10 : '
            "20)); return 0;}"
        ),
        "0*1000",
        0,
        "30\n",
        "hls: ended, 12 steps\n",
    ),
    (
        (
            'int g[2][3] = {{1, 2}, {4}}; int main(void){g[1][2] = g[0][1] + g[1][0]; printf("%d\\n", g[1][2]); return '
            "0;}"
        ),
        "0*1000",
        0,
        "6\n",
        "hls: ended, 4 steps\n",
    ),
    (
        "int g[2][3]; int main(void){g[0][3] = 1; return 0;}",
        "0*99",
        10,
        "",
        "hls: undefined at step 0, byte 28: index\n",
    ),
    ("int main(void){int a = 1; int b = a && 1; return 0;}", "0*1000", 0, "", "hls: ended, 5 steps\n"),
    (
        "int f(int a){return a;} int main(void){int x = f(1) + f(2); return 0;}",
        "0*1000",
        0,
        "",
        "hls: ended, 6 steps\n",
    ),
    (
        "int f(int a){return a;} int main(void){int z = 0; int x = f(f(1 / z)); return 0;}",
        "0*99",
        10,
        "",
        "hls: undefined at step 1, byte 54: divisor\n",
    ),
    (
        "int f(int a){return a;} int main(void){int z = 0; if (1 && f(1 / z)) z = 1; return 0;}",
        "0*99",
        10,
        "",
        "hls: undefined at step 2, byte 59: divisor\n",
    ),
    (
        "int f(int a){return a;} int main(void){int z = 0; int x = z ? 1 : f(2 / z); return 0;}",
        "0*99",
        10,
        "",
        "hls: undefined at step 2, byte 66: divisor\n",
    ),
    (
        "int main(void){int z = 0; int x = (z ? 1 : (2 / z)); return 0;}",
        "0*99",
        10,
        "",
        "hls: undefined at step 2, byte 43: divisor\n",
    ),
    (
        "int main(void){int z = 0; int x = 1 / z ? 1 : 2; return 0;}",
        "0*99",
        10,
        "",
        "hls: undefined at step 1, byte 34: divisor\n",
    ),
    (
        "int g(void){} int main(void){int x; x = 1 + g(); return 0;}",
        "0*99",
        10,
        "",
        "hls: undefined at step 3, byte 36: no value\n",
    ),
    (
        "int g(void){} int main(void){if (g()) ; return 0;}",
        "0*99",
        10,
        "",
        "hls: undefined at step 2, byte 33: no value\n",
    ),
    (
        "int g(void){} int f(int a){return a;} int main(void){int x = f(g()); return 0;}",
        "0*99",
        10,
        "",
        "hls: undefined at step 2, byte 57: no value\n",
    ),
    (
        "int a[4]; int f(int a){return a;} int main(void){int z = 0; a[f(3)] = f(1) / z; return 0;}",
        "0*99",
        10,
        "",
        "hls: undefined at step 5, byte 60: divisor\n",
    ),
    (
        "int main(void){int x = 3; switch (1 % (x - 3)) {default: ;} return 0;}",
        "0*99",
        10,
        "",
        "hls: undefined at step 1, byte 26: divisor\n",
    ),
    (
        (
            "int f(int a){return a;} int main(void){int x = 3; while (x) switch (f(1 / (x - 3))) {default: ;} return "
            "0;}"
        ),
        "0*99",
        10,
        "",
        "hls: undefined at step 2, byte 60: divisor\n",
    ),
    ("int main(void){switch (1) {} return 0;}", "0*1000", 0, "", "hls: ended, 2 steps\n"),
    ("int main(void){switch (2) {case 1: return 1;} return 0;}", "0*1000", 0, "", "hls: ended, 2 steps\n"),
    (
        (
            "int f(int a){return a;} int main(void){int x = 4; switch (f(x)) {case 4: x = 1; break; case 5: x = 2;} "
            "return x;}"
        ),
        "0*1000",
        0,
        "",
        "hls: ended, 6 steps\n",
    ),
    (
        "int g[2][3]; int main(void){int z = 0; z = g[2][1 / z]; return 0;}",
        "0*99",
        10,
        "",
        "hls: undefined at step 1, byte 39: index\n",
    ),
    (
        "int g[2][3]; int main(void){int z = 0; z = g[1][1 / z]; return 0;}",
        "0*99",
        10,
        "",
        "hls: undefined at step 1, byte 39: divisor\n",
    ),
    (
        "int main(void){int x; int y = x ? 1 : 2; return 0;}",
        "0*99",
        10,
        "",
        "hls: undefined at step 1, byte 30: unwritten\n",
    ),
    (
        "int main(void){int i; for (i = 0; i < 2; i++) {int x = x ? 1 : 2;} return 0;}",
        "0*99",
        10,
        "",
        "hls: undefined at step 3, byte 55: unwritten\n",
    ),
    (
        "int main(void){int a[2][2]; a[0][1] = 3; return a[0][1] + a[1][0];}",
        "0*99",
        10,
        "",
        "hls: undefined at step 2, byte 41: unwritten\n",
    ),
    ("int main(void){int x = !(1 || 1 / 0) + 1; return x;}", "0*1000", 0, "", "hls: ended, 3 steps\n"),
    ("int main(void){int x; x = 1 && 0 || 1; return x;}", "0*1000", 0, "", "hls: ended, 6 steps\n"),
    ("int main(void){if (1 ? 0 : 1) ; return 0;}", "0*1000", 0, "", "hls: ended, 4 steps\n"),
    ("int main(void){if ((1 && 1) == 1) ; return 0;}", "0*1000", 0, "", "hls: ended, 4 steps\n"),
    ("int main(void){if ((1 && 1) || 0) ; return 0;}", "0*1000", 0, "", "hls: ended, 3 steps\n"),
    (
        (
            "pthread_t t[2]; void *w(void *p){return NULL;} int f(int a){return a;} int "
            "main(void){pthread_create(&t[f(1)], NULL, w, (void *)(long)f(5)); pthread_join(t[f(1)], NULL); return 0;}"
        ),
        "0*6,2,0*5",
        0,
        "",
        "hls: ended, 12 steps\n",
    ),
    (
        (
            "pthread_t t[2]; void *w(void *p){return NULL;} int f(int a){return a;} int "
            "main(void){pthread_create(&t[f(1)], NULL, w, (void *)(long)f(5)); pthread_join(t[f(1)], NULL); return 0;}"
        ),
        "0*6,1",
        10,
        "",
        "hls: blocked at step 6, thread 1: not running\n",
    ),
    (
        (
            "const int c[8][8] = {{91, 91, 91, 91, 91, 91, 91, 91}, {126, 106, 71, 25, -25, -71, -106, -126}, {118, "
            "49, -49, -118, -118, -49, 49, 118}, {106, -25, -126, -71, 71, 126, 25, -106}, {91, -91, -91, 91, 91, -91, "
            "-91, 91}, {71, -126, 25, 106, -106, -25, 126, -71}, {49, -118, 118, -49, -49, 118, -118, 49}, {25, -71, "
            "106, -126, 126, -106, 71, -25}}; int a[8][8]; int t[8][8]; int main(void){int i; int j; int k; int s; for "
            "(i = 0; i < 8; i++) for (j = 0; j < 8; j++) a[i][j] = (i * 37 + j * 11) % 256 - 128; for (i = 0; i < 8; "
            "i++) for (j = 0; j < 8; j++){s = 0; for (k = 0; k < 8; k++) s += c[i][k] * a[k][j]; t[i][j] = s >> 8;} "
            "for (i = 0; i < 8; i++) for (j = 0; j < 8; j++){s = 0; for (k = 0; k < 8; k++) s += t[i][k] * c[j][k]; "
            'a[i][j] = s >> 8;} for (i = 0; i < 8; i++) printf("%d %d %d %d\\n", a[i][0], a[i][1], a[i][4], a[i][7]); '
            "return 0;}"
        ),
        "0*10000",
        0,
        (
            "-99 -41 -32 -17\n-146 -171 25 20\n-388 38 17 -18\n150 94 -45 5\n-98 -162 32 14\n11 149 8 -35\n-14 -94 -42 "
            "41\n2 38 37 -29\n"
        ),
        "hls: ended, 4173 steps\n",
    ),
    (
        (
            "const char s[12] = {49, 50, 43, 32, 55, 42, 51, 45, 52, 52, 33, 0}; int main(void){int st = 0; int acc = "
            "0; int n = 0; int i; for (i = 0; s[i] != 0; i++) { switch (st) { case 0: if (s[i] == 32) break; if (s[i] "
            "< 48 || s[i] > 57) { st = 2; break; } n = 0; st = 1; case 1: if (s[i] >= 48 && s[i] <= 57) { n = n * 10 + "
            '(s[i] - 48); continue; } acc += n; st = 0; break; default: printf("bad %d\\n", i); st = 0; continue; } '
            'printf("%d: %d\\n", i, st); } printf("%d\\n", acc); return 0;}'
        ),
        "0*10000",
        0,
        "2: 0\n3: 0\n5: 0\n7: 0\n10: 0\n66\n",
        "hls: ended, 103 steps\n",
    ),
    (
        (
            "unsigned char p[6][8]; int ab(int x){return x < 0 ? -x : x;} int main(void){int y; int x; for (y = 0; y < "
            "6; y++) for (x = 0; x < 8; x++) p[y][x] = x * y * 7 + (x > 3 ? 90 : 0); for (y = 1; y < 5; y++) { for (x "
            "= 1; x < 7; x++) { int gx = p[y - 1][x + 1] + 2 * p[y][x + 1] + p[y + 1][x + 1] - p[y - 1][x - 1] - 2 * "
            "p[y][x - 1] - p[y + 1][x - 1]; int gy = p[y + 1][x - 1] + 2 * p[y + 1][x] + p[y + 1][x + 1] - p[y - 1][x "
            '- 1] - 2 * p[y - 1][x] - p[y - 1][x + 1]; int m = ab(gx) + ab(gy); printf("%d ", m > 255 ? 255 : m); } '
            'printf("\\n"); } return 0;}'
        ),
        "0*10000",
        0,
        "112 168 255 255 255 255 \n168 224 255 255 255 255 \n224 255 255 255 112 255 \n255 255 255 255 255 255 \n",
        "hls: ended, 703 steps\n",
    ),
    (
        (
            "const int prog[13][3] = {{1, 0, 1}, {1, 1, 10}, {1, 2, 0}, {7, 1, 10}, {2, 2, 0}, {4, 0, 0}, {3, 1, 1}, "
            "{6, 3, 0}, {0}, {0}, {5, 2}, {0}, {0}}; int r[4]; int main(void){int pc = 0; int run = 1; int steps = 0; "
            "while (run && steps < 200) { int op = prog[pc][0]; int x = prog[pc][1]; int y = prog[pc][2]; pc++; "
            "steps++; switch (op) { case 1: r[x] = y; break; case 2: r[x] = r[x] + r[y]; break; case 3: r[x] -= y; "
            'break; case 4: r[x]++; break; case 5: printf("%d\\n", r[x]); break; case 6: pc = x; break; case 7: if '
            '(r[x] == 0) pc = y; break; default: run = 0; } } printf("%d\\n", steps); return 0;}'
        ),
        "0*10000",
        0,
        "55\n56\n",
        "hls: ended, 513 steps\n",
    ),
    (
        (
            "int a[3][4] = {{1, 2, 3, 4}, {5, 6, 7, 8}, {9, 10, 11, 12}}; int b[4][2] = {1, 2, 3, 4, 5, 6, 7, 8}; int "
            "c[3][2]; int main(void){int i; int j; int k; for (i = 0; i < 3; i++) for (j = 0; j < 2; j++) { c[i][j] = "
            '0; for (k = 0; k < 4; k++) c[i][j] += a[i][k] * b[k][j]; } for (i = 0; i < 3; i++) printf("%d %d\\n", '
            "c[i][0], c[i][1]); return 0;}"
        ),
        "0*10000",
        0,
        "50 60\n114 140\n178 220\n",
        "hls: ended, 134 steps\n",
    ),
    (
        (
            "int v[16] = {7, 3, 9, 1, 15, 4, 4, 12, 0, 8, 2, 11, 6, 14, 5, 10}; int lo[16]; int hi[16]; int mid(int a, "
            "int b, int c){return a < b ? b < c ? b : a < c ? c : a : a < c ? a : b < c ? c : b;} int main(void){int "
            "top = 1; lo[0] = 0; hi[0] = 15; while (top > 0) { int l; int h; int i; int j; int p; top--; l = lo[top]; "
            "h = hi[top]; if (l >= h) continue; p = mid(v[l], v[(l + h) / 2], v[h]); i = l; j = h; while (i <= j) { "
            "while (v[i] < p) i++; while (v[j] > p) j--; if (i <= j) { int x = v[i]; v[i] = v[j]; v[j] = x; i++; j--; "
            "} } lo[top] = l; hi[top] = j; top++; lo[top] = i; hi[top] = h; top++; } for (top = 0; top < 16; top++) "
            'printf("%d\\n", v[top]); return 0;}'
        ),
        "0*10000",
        0,
        "0\n1\n2\n3\n4\n4\n5\n6\n7\n8\n9\n10\n11\n12\n14\n15\n",
        "hls: ended, 781 steps\n",
    ),
    (
        (
            "int n; int t(int x){n = n * 10 + x; return x;} int main(void){int a = t(1) && t(0) && t(5) || t(2); int b "
            "= t(0) ? t(7) : t(3) ? t(4) : t(6); int c = !(t(0) || t(8)) + 1; switch (t(9)) { case 9: n++; } "
            'printf("%d %d %d %d\\n", n, a, b, c); return 0;}'
        ),
        "0*10000",
        0,
        "102034090 1 4 1\n",
        "hls: ended, 44 steps\n",
    ),
    (
        (
            "int g[2][3][4] = {{{1, 2}, {3}}, {{4, 5, 6, 7}}}; int f(int a){return a % 2;} int main(void){int i = 1; "
            'g[f(i)][i + 1][f(3) ? 3 : 0] += g[0][f(i)][0] + g[1][0][i && f(i)]; printf("%d %d\\n", g[1][2][3], g[f(i) '
            "- 1][0][1]); return 0;}"
        ),
        "0*10000",
        0,
        "8 2\n",
        "hls: ended, 19 steps\n",
    ),
    (
        (
            "int main(void){unsigned char c = 200; long k; for (k = -2; k < 3; k++) switch (k) { case -2: case 2: "
            'printf("e\\n"); break; case 0: ; case 4294967295L: printf("z\\n"); default: printf("d\\n"); case -1: '
            'printf("m\\n"); } switch (c) { case 200: printf("c\\n"); break; case -56: printf("s\\n"); } switch '
            '((char)c) { case -56: printf("s\\n"); } return 0;}'
        ),
        "0*10000",
        0,
        "e\nm\nz\nd\nm\nd\nm\ne\nc\ns\n",
        "hls: ended, 42 steps\n",
    ),
    (
        (
            "int main(void){int i; int j; int n = 0; for (i = 0; i < 4; i++) { for (j = 0; j < 4; j++) { switch (i * "
            "j) { case 2: continue; case 3: break; case 6: j = 9; break; default: n += 1; } n += 100; switch (j) { } "
            'switch (i) { default: n += 10000; } } } printf("%d\\n", n); return 0;}'
        ),
        "0*10000",
        0,
        "131309\n",
        "hls: ended, 132 steps\n",
    ),
]

# A text, and what the steps and the runs of its hardware print.
PRINTS = [
    (
        (
            'int main(void){int i; for (i = 0; i < 4; i++) switch (i) { case 1: printf("a\\n"); case 2: '
            'printf("b\\n"); break; default: printf("d\\n"); } return 0;}'
        ),
        "d\na\nb\nb\nd\n",
    ),
    (
        (
            'int f(int a){return a + 1;} int main(void){int x = 3; printf("%d\\n", f(x) * f(f(x)) + (x > 2 ? 10 : '
            "20)); return 0;}"
        ),
        "30\n",
    ),
    (
        (
            'int g[2][3] = {{1, 2}, {4}}; int main(void){g[1][2] = g[0][1] + g[1][0]; printf("%d\\n", g[1][2]); return '
            "0;}"
        ),
        "6\n",
    ),
    (
        (
            'int main(void){int a = -1; unsigned b = 1; printf("%d %d\\n", (a ? a : b) < 0, (b ? a : 1) < 0); return '
            "0;}"
        ),
        "0 1\n",
    ),
    (
        (
            "int b(int x){switch (x) {case 200: return 1; case -56: return 2; default: return 3;}} int "
            'main(void){unsigned char c = 200; char d = 200; printf("%d %d\\n", b(c), b(d)); return 0;}'
        ),
        "1 2\n",
    ),
    ('char low(int x){return x;} int main(void){printf("%d %d\\n", low(511) + 1, low(384) / 2); return 0;}', "0 -64\n"),
    (
        (
            'int main(void){unsigned u = 4294967295u; switch (u) {case -1: printf("a\\n"); break; case 1: '
            'printf("b\\n");} switch ((char)u) {case 255: printf("c\\n"); case -1: printf("d\\n");} return 0;}'
        ),
        "a\nd\n",
    ),
    (
        (
            'int main(void){int i; for (i = 0; i < 3; i++) switch (i) {case 0: printf("0\\n"); default: '
            'printf("x\\n"); case 2: printf("2\\n");} return 0;}'
        ),
        "0\nx\n2\nx\n2\n2\n",
    ),
    (
        (
            "int main(void){int i; int n = 0; for (i = 0; i < 5; i++) {switch (i) {case 1: continue; case 3: break; "
            'default: n += 10;} n++;} printf("%d\\n", n); return 0;}'
        ),
        "34\n",
    ),
    (
        (
            "int a[2][3] = {{1, 2}, {4}}; int b[2][3] = {1, 2, 3, 4}; char c[2][2][2] = {{{1}, {3, 4}}, {{5, 200}}}; "
            'int main(void){printf("%d %d %d %d\\n", a[0][2], a[1][0], b[1][0], b[1][2]); printf("%d %d %d %d\\n", '
            "c[0][1][0], c[1][0][1], c[1][1][0], c[0][0][1]); return 0;}"
        ),
        "0 4 4 0\n3 -56 0 0\n",
    ),
    (
        (
            "int main(void){int z = 0; int a = z && 1 / z; int b = !z || 1 / z; int c = (z || 7) + (3 && 2); "
            'printf("%d %d %d\\n", a, b, c); return 0;}'
        ),
        "0 1 2\n",
    ),
    (
        (
            "int n; int t(int x){n = n * 10 + x; return x;} int main(void){int a = t(1) && t(0) || t(2); int b = t(0) "
            '? t(3) : t(4) ? t(5) : t(6); printf("%d %d %d\\n", n, a, b); return 0;}'
        ),
        "102045 1 5\n",
    ),
]

# A text, the status of a check, and its line: which mutexes are surely held in a switch, and where a call stands in an
# expression.
CHECKS = [
    (
        (
            "pthread_t t[2]; pthread_mutex_t m; int n; void *w(void *p){int k = 0; pthread_mutex_lock(&m); switch (k) "
            "{case 0: n = 1; break; default: n = 2;} pthread_mutex_unlock(&m); return NULL;} int main(void){int i; "
            "pthread_mutex_init(&m, NULL); for (i = 0; i < 2; i++) pthread_create(&t[i], NULL, w, NULL); for (i = 0; i "
            "< 2; i++) pthread_join(t[i], NULL); return 0;}"
        ),
        0,
        "hls: disciplined, 1 globals\n",
    ),
    (
        (
            "pthread_t t[2]; pthread_mutex_t m; int n; void *w(void *p){int k = 0; pthread_mutex_lock(&m); switch (k) "
            "{case 0: n = 1; pthread_mutex_unlock(&m); break; default: pthread_mutex_unlock(&m);} return NULL;} int "
            "main(void){int i; pthread_mutex_init(&m, NULL); for (i = 0; i < 2; i++) pthread_create(&t[i], NULL, w, "
            "NULL); for (i = 0; i < 2; i++) pthread_join(t[i], NULL); return 0;}"
        ),
        12,
        "hls: doubt at byte 114: n\n",
    ),
    (
        (
            "pthread_t t[2]; pthread_mutex_t m; int n; void *w(void *p){int k = 0; switch (k) {case 0: "
            "pthread_mutex_lock(&m); n = n + 1; pthread_mutex_unlock(&m);} return NULL;} int main(void){int i; "
            "pthread_mutex_init(&m, NULL); for (i = 0; i < 2; i++) pthread_create(&t[i], NULL, w, NULL); for (i = 0; i "
            "< 2; i++) pthread_join(t[i], NULL); return 0;}"
        ),
        0,
        "hls: disciplined, 1 globals\n",
    ),
    (
        (
            "pthread_t t[2]; pthread_mutex_t m; int n; void *w(void *p){int k = 0; switch (k) {case 0: "
            "pthread_mutex_lock(&m); case 1: n = 1; pthread_mutex_unlock(&m);} return NULL;} int main(void){int i; "
            "pthread_mutex_init(&m, NULL); for (i = 0; i < 2; i++) pthread_create(&t[i], NULL, w, NULL); for (i = 0; i "
            "< 2; i++) pthread_join(t[i], NULL); return 0;}"
        ),
        12,
        "hls: doubt at byte 122: n\n",
    ),
    (
        (
            "pthread_t t[2]; pthread_mutex_t m; int n; void *w(void *p){int k = 0; switch (k) {case 0: "
            "pthread_mutex_lock(&m);} n = 1; return NULL;} int main(void){int i; pthread_mutex_init(&m, NULL); for (i "
            "= 0; i < 2; i++) pthread_create(&t[i], NULL, w, NULL); for (i = 0; i < 2; i++) pthread_join(t[i], NULL); "
            "return 0;}"
        ),
        12,
        "hls: doubt at byte 115: n\n",
    ),
    (
        (
            "pthread_t t[2]; pthread_mutex_t m; int n; int u(int a){pthread_mutex_unlock(&m); return a;} void *w(void "
            "*p){int k = 0; pthread_mutex_lock(&m); n = u(k) + n; return NULL;} int main(void){int i; "
            "pthread_mutex_init(&m, NULL); for (i = 0; i < 2; i++) pthread_create(&t[i], NULL, w, NULL); for (i = 0; i "
            "< 2; i++) pthread_join(t[i], NULL); return 0;}"
        ),
        12,
        "hls: doubt at byte 144: n\n",
    ),
    (
        (
            "pthread_t t[2]; pthread_mutex_t m; int n; int g(int a){n = n + a; return n;} void *w(void *p){int k = 0; "
            "pthread_mutex_lock(&m); k = g(1) + 2; pthread_mutex_unlock(&m); return NULL;} int main(void){int i; "
            "pthread_mutex_init(&m, NULL); for (i = 0; i < 2; i++) pthread_create(&t[i], NULL, w, NULL); for (i = 0; i "
            "< 2; i++) pthread_join(t[i], NULL); return 0;}"
        ),
        0,
        "hls: disciplined, 1 globals\n",
    ),
    (
        (
            "pthread_t t[2]; pthread_mutex_t m; int n; int h(int a){pthread_mutex_lock(&m); n = n + a; "
            "pthread_mutex_unlock(&m); return a;} void *w(void *p){int k = 0; k = h(1) + 2; return NULL;} int "
            "main(void){int i; pthread_mutex_init(&m, NULL); for (i = 0; i < 2; i++) pthread_create(&t[i], NULL, w, "
            "NULL); for (i = 0; i < 2; i++) pthread_join(t[i], NULL); return 0;}"
        ),
        0,
        "hls: disciplined, 1 globals\n",
    ),
    (
        (
            "pthread_t t[2]; pthread_mutex_t m; int n; void *w(void *p){int k = 0; pthread_mutex_lock(&m); n = 1; "
            "pthread_mutex_unlock(&m); k = n ? 1 : 2; return NULL;} int main(void){int i; pthread_mutex_init(&m, "
            "NULL); for (i = 0; i < 2; i++) pthread_create(&t[i], NULL, w, NULL); for (i = 0; i < 2; i++) "
            "pthread_join(t[i], NULL); return 0;}"
        ),
        12,
        "hls: doubt at byte 94: n\n",
    ),
]
