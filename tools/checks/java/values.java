// Operators, casts and string conversion at the corners of their ranges; real Java prints values.out.
class Values {
  static void ofInts() {
    { int a = 2147483647; int b = 1; System.out.println(a + b); }
    { int a = -2147483648; int b = 1; System.out.println(a - b); }
    { int a = 65536; int b = 65536; System.out.println(a * b); }
    { int a = 46341; int b = 46341; System.out.println(a * b); }
    { int a = -3; int b = 7; System.out.println(a * b); }
    { int a = -2147483648; int b = -1; System.out.println(a / b); }
    { int a = -2147483648; int b = -1; System.out.println(a % b); }
    { int a = -7; int b = 3; System.out.println(a / b); }
    { int a = -7; int b = 3; System.out.println(a % b); }
    { int a = 7; int b = -3; System.out.println(a / b); }
    { int a = 7; int b = -3; System.out.println(a % b); }
    { int a = -7; int b = -3; System.out.println(a / b); }
    { int a = -7; int b = -3; System.out.println(a % b); }
    { int a = 1; int b = -1; System.out.println(a << b); }
    { int a = 1; int b = 31; System.out.println(a << b); }
    { int a = 1; int b = 32; System.out.println(a << b); }
    { int a = 1; int b = 33; System.out.println(a << b); }
    { int a = 1; int b = 63; System.out.println(a << b); }
    { int a = 1; int b = 64; System.out.println(a << b); }
    { int a = 1; int b = 65; System.out.println(a << b); }
    { int a = -7; int b = -1; System.out.println(a >> b); }
    { int a = -7; int b = 31; System.out.println(a >> b); }
    { int a = -7; int b = 32; System.out.println(a >> b); }
    { int a = -7; int b = 33; System.out.println(a >> b); }
    { int a = -7; int b = 63; System.out.println(a >> b); }
    { int a = -7; int b = 64; System.out.println(a >> b); }
    { int a = -7; int b = 65; System.out.println(a >> b); }
    { int a = -7; int b = -1; System.out.println(a >>> b); }
    { int a = -7; int b = 31; System.out.println(a >>> b); }
    { int a = -7; int b = 32; System.out.println(a >>> b); }
    { int a = -7; int b = 33; System.out.println(a >>> b); }
    { int a = -7; int b = 63; System.out.println(a >>> b); }
    { int a = -7; int b = 64; System.out.println(a >>> b); }
    { int a = -7; int b = 65; System.out.println(a >>> b); }
    { int a = -7; int b = 12; System.out.println(a & b); }
    { int a = -8; int b = 3; System.out.println(a | b); }
    { int a = -1; int b = -2147483648; System.out.println(a ^ b); }
    { int a = -2147483648; int b = 2147483647; System.out.println(a < b); }
    { int a = -1; int b = 0; System.out.println(a > b); }
    { int a = 3; int b = 3; System.out.println(a <= b); }
    { int a = -4; int b = -3; System.out.println(a >= b); }
    { int a = -2147483648; int b = -2147483648; System.out.println(a == b); }
    { int a = 1; int b = 2; System.out.println(a != b); }
    try { int a = 5; int b = 0; System.out.println(a / b); } catch (ArithmeticException e) { System.out.println("by zero"); }
    try { int a = 0; int b = 0; System.out.println(a % b); } catch (ArithmeticException e) { System.out.println("by zero"); }
  }

  static void ofLongs() {
    { long a = 9223372036854775807L; long b = 1L; System.out.println(a + b); }
    { long a = -9223372036854775808L; long b = 1L; System.out.println(a - b); }
    { long a = 4294967296L; long b = 4294967296L; System.out.println(a * b); }
    { long a = 3037000500L; long b = 3037000500L; System.out.println(a * b); }
    { long a = -9223372036854775808L; long b = -1L; System.out.println(a / b); }
    { long a = -9223372036854775808L; long b = -1L; System.out.println(a % b); }
    { long a = -7L; long b = 3L; System.out.println(a / b); }
    { long a = -7L; long b = 3L; System.out.println(a % b); }
    { long a = 7L; long b = -3L; System.out.println(a / b); }
    { long a = 7L; long b = -3L; System.out.println(a % b); }
    { long a = 1L; long b = -1L; System.out.println(a << b); }
    { long a = 1L; long b = 31L; System.out.println(a << b); }
    { long a = 1L; long b = 32L; System.out.println(a << b); }
    { long a = 1L; long b = 33L; System.out.println(a << b); }
    { long a = 1L; long b = 63L; System.out.println(a << b); }
    { long a = 1L; long b = 64L; System.out.println(a << b); }
    { long a = 1L; long b = 65L; System.out.println(a << b); }
    { long a = -7L; long b = -1L; System.out.println(a >> b); }
    { long a = -7L; long b = 31L; System.out.println(a >> b); }
    { long a = -7L; long b = 32L; System.out.println(a >> b); }
    { long a = -7L; long b = 33L; System.out.println(a >> b); }
    { long a = -7L; long b = 63L; System.out.println(a >> b); }
    { long a = -7L; long b = 64L; System.out.println(a >> b); }
    { long a = -7L; long b = 65L; System.out.println(a >> b); }
    { long a = -7L; long b = -1L; System.out.println(a >>> b); }
    { long a = -7L; long b = 31L; System.out.println(a >>> b); }
    { long a = -7L; long b = 32L; System.out.println(a >>> b); }
    { long a = -7L; long b = 33L; System.out.println(a >>> b); }
    { long a = -7L; long b = 63L; System.out.println(a >>> b); }
    { long a = -7L; long b = 64L; System.out.println(a >>> b); }
    { long a = -7L; long b = 65L; System.out.println(a >>> b); }
    { long a = -7L; long b = 12L; System.out.println(a & b); }
    { long a = -9223372036854775808L; long b = 1L; System.out.println(a | b); }
    { long a = -1L; long b = 9223372036854775807L; System.out.println(a ^ b); }
    { long a = -9223372036854775808L; long b = 9223372036854775807L; System.out.println(a < b); }
    { long a = -1L; long b = 0L; System.out.println(a > b); }
    { long a = 3L; long b = 3L; System.out.println(a <= b); }
    { long a = -4L; long b = -3L; System.out.println(a >= b); }
    { long a = -9223372036854775808L; long b = 9223372036854775807L; System.out.println(a == b); }
    { long a = 1L; long b = 2L; System.out.println(a != b); }
    try { long a = 5L; long b = 0L; System.out.println(a / b); } catch (ArithmeticException e) { System.out.println("by zero"); }
    try { long a = 0L; long b = 0L; System.out.println(a % b); } catch (ArithmeticException e) { System.out.println("by zero"); }
  }

  static void ofIntsByLongs() {
    { int a = 1; long b = 33L; System.out.println(a << b); }
    { int a = 1; long b = -1L; System.out.println(a << b); }
    { int a = 1; long b = 4294967296L; System.out.println(a << b); }
    { int a = -7; long b = 33L; System.out.println(a >> b); }
  }

  static void ofLongsByInts() {
    { long a = 1L; int b = 33; System.out.println(a << b); }
    { long a = 1L; int b = -1; System.out.println(a << b); }
    { long a = 1L; int b = 64; System.out.println(a << b); }
    { long a = -7L; int b = -1; System.out.println(a >>> b); }
  }

  static void ofBooleans() {
    { boolean a = false; boolean b = false; System.out.println(a & b); }
    { boolean a = false; boolean b = true; System.out.println(a & b); }
    { boolean a = true; boolean b = false; System.out.println(a & b); }
    { boolean a = true; boolean b = true; System.out.println(a & b); }
    { boolean a = false; boolean b = false; System.out.println(a | b); }
    { boolean a = false; boolean b = true; System.out.println(a | b); }
    { boolean a = true; boolean b = false; System.out.println(a | b); }
    { boolean a = true; boolean b = true; System.out.println(a | b); }
    { boolean a = false; boolean b = false; System.out.println(a ^ b); }
    { boolean a = false; boolean b = true; System.out.println(a ^ b); }
    { boolean a = true; boolean b = false; System.out.println(a ^ b); }
    { boolean a = true; boolean b = true; System.out.println(a ^ b); }
    { boolean a = false; boolean b = false; System.out.println(a == b); }
    { boolean a = false; boolean b = true; System.out.println(a == b); }
    { boolean a = true; boolean b = false; System.out.println(a == b); }
    { boolean a = true; boolean b = true; System.out.println(a == b); }
    { boolean a = false; boolean b = false; System.out.println(a != b); }
    { boolean a = false; boolean b = true; System.out.println(a != b); }
    { boolean a = true; boolean b = false; System.out.println(a != b); }
    { boolean a = true; boolean b = true; System.out.println(a != b); }
  }

  static void ofOne() {
    { int a = -2147483648; System.out.println(+a); }
    { int a = -2147483648; System.out.println(-a); }
    { int a = -2147483648; System.out.println(~a); }
    { int a = 7; System.out.println(+a); }
    { int a = 7; System.out.println(-a); }
    { int a = 7; System.out.println(~a); }
    { int a = 0; System.out.println(+a); }
    { int a = 0; System.out.println(-a); }
    { int a = 0; System.out.println(~a); }
    { long a = -9223372036854775808L; System.out.println(+a); }
    { long a = -9223372036854775808L; System.out.println(-a); }
    { long a = -9223372036854775808L; System.out.println(~a); }
    { long a = 5L; System.out.println(+a); }
    { long a = 5L; System.out.println(-a); }
    { long a = 5L; System.out.println(~a); }
    { boolean a = true; System.out.println(!a); }
  }

  static void casts() {
    { int a = 200; System.out.println((byte) a); }
    { int a = 128; System.out.println((byte) a); }
    { int a = -129; System.out.println((byte) a); }
    { int a = 65535; System.out.println((short) a); }
    { int a = 32768; System.out.println((short) a); }
    { int a = -1; System.out.println((int) (char) a); }
    { int a = 65536; System.out.println((int) (char) a); }
    { int a = 98; System.out.println((int) (char) a); }
    { int a = -2147483648; System.out.println((long) a); }
    { long a = 2147483648L; System.out.println((int) a); }
    { long a = 4294967295L; System.out.println((int) a); }
    { char a = 65535; System.out.println((int) a); }
    { byte a = -128; System.out.println((int) a); }
    { byte a = -1; System.out.println((int) (char) a); }
    { char a = 65535; System.out.println((short) a); }
    { short a = 384; System.out.println((byte) a); }
    { boolean a = true; System.out.println((boolean) a); }
  }

  static void references() {
    Object none = null;
    Object one = new Object();
    Object other = new Object();
    System.out.println(none == null);
    System.out.println(one == one);
    System.out.println(one == other);
    System.out.println(one == null);
    String fixed = "ab";
    String made = "a";
    made = made + "b";
    System.out.println((Object) made == (Object) fixed);
    System.out.println((Object) fixed != (Object) made);
  }

  static void texts() {
    byte least = -128;
    short below = -1;
    char letter = 120;
    Object none = null;
    System.out.println("" + true + false);
    System.out.println("" + least);
    System.out.println("" + below);
    System.out.println("" + letter);
    System.out.println("" + -2147483648);
    System.out.println("" + 0);
    System.out.println("" + -9223372036854775808L);
    System.out.println("" + none);
  }

  public static void main(String[] args) {
    ofInts();
    ofLongs();
    ofIntsByLongs();
    ofLongsByInts();
    ofBooleans();
    ofOne();
    casts();
    references();
    texts();
  }
}
