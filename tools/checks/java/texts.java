// Texts: numerals, order, parts and bytes; real Java prints texts.out. (Java's parseInt also reads other digits than the ASCII
// ones, which this program refuses, so no row has them.)
class Texts {
  static void numeral(String text) {
    try {
      System.out.println(Integer.parseInt(text));
    } catch (NumberFormatException e) {
      System.out.println("no int: " + text);
    }
  }

  static void order(String one, String other) {
    System.out.println(one.compareTo(other));
    System.out.println(one.equals(other));
  }

  static void unit(int index) {
    try {
      System.out.println("hamburger".charAt(index));
    } catch (StringIndexOutOfBoundsException e) {
      System.out.println("no unit at " + index);
    }
  }

  static void part(int from, int to) {
    try {
      System.out.println("hamburger".substring(from, to));
    } catch (StringIndexOutOfBoundsException e) {
      System.out.println("no part from " + from + " to " + to);
    }
  }

  public static void main(String[] args) {
    numeral("+7");
    numeral("-0");
    numeral("");
    numeral("+");
    numeral("-");
    numeral("-2147483648");
    numeral("2147483648");
    numeral("2147483647");
    numeral("-2147483649");
    numeral("007");
    numeral("+-7");
    numeral("--7");
    numeral(" 7");
    numeral("7 ");
    numeral("1_0");
    numeral("12a");
    numeral("0x10");
    numeral("99999999999");
    numeral("+0");
    numeral("-+1");
    numeral("7L");
    order("abc", "abd");
    order("abc", "ab");
    order("ab", "abc");
    order("", "abc");
    order("abc", "abc");
    order("b", "abc");
    order("\ud83d\ude00", "\uffff");
    order("\0", "\uffff");
    unit(8);
    unit(-1);
    unit(9);
    unit(-2147483648);
    unit(2147483647);
    part(4, 8);
    part(0, 0);
    part(9, 9);
    part(5, 4);
    part(-1, 4);
    part(0, 10);
    part(10, 10);
    System.out.println("\u0061\u00e9\u20ac\ud83d\ude00");
    System.out.println("\ud800");
    System.out.println("\udc00\ud800");
    System.out.println("\ud800\ud83d\ude00");
    System.out.println("\u0078\udc00\u0079");
    System.out.println("\ud7ff\ue000\uffff");
    System.out.println("\udbff\udfff");
  }
}
