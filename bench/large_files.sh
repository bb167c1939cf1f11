# Files of some 900 KB that are programs, for the measurements of `check` and `code`; the script that sources it has `dir`.
# shellcheck shell=bash
# shellcheck disable=SC2154
awk 'BEGIN {
    for (i = 0; i < 3100; i++) {
        printf "#define LIMIT%d %d\nstatic long cell%d[LIMIT%d + 1];\n", i, i % 100, i, i
        printf "long f%d(long *p, unsigned n)\n{\n    long sum = 0;\n", i
        printf "    for (unsigned k = 0; k < n; k++) {\n        if (p[k] >= LIMIT%d && p[k] != sum)\n", i
        printf "            sum += p[k] << 2;\n        else\n            sum ^= cell%d[0];\n    }\n    return sum;\n}\n", i
    }
    print "int main(void)\n{\n    return (int)f0(cell0, 1);\n}"
}' >"$dir/functions.c"
awk 'BEGIN {
    print "int main(void)\n{\n    int x = 0;"
    for (i = 0; i < 22000; i++) printf "    x = (x + %d) * 3 ^ x >> (x & 7);\n", i
    print "    return x;\n}"
}' >"$dir/expressions.c"
awk 'BEGIN {
    for (i = 0; i < 3600; i++) {
        printf "struct record%d {\n    int first;\n    char name[%d];\n    struct record%d *next;\n};\n", i, i % 30 + 1, i
        printf "enum kind%d { NONE%d, SOME%d = %d, MANY%d };\n", i, i, i, i % 7, i
        printf "typedef int (*call%d)(struct record%d *, enum kind%d);\n", i, i, i
        printf "static struct record%d object%d = {MANY%d, \"n\", &object%d};\n", i, i, i, i
    }
    print "int main(void)\n{\n    return object0.first + NONE0;\n}"
}' >"$dir/declarations.c"
