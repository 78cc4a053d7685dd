// Ints in each base, and both kinds of comments.
public class Literals {
  public static void main(String[] args) {
    /* 255, written four ways */
    int decimal = 255;
    int hexadecimal = 0xFF;
    int octal = 0377;
    int binary = 0b1111_1111;
    System.out.println(decimal + hexadecimal + octal + binary); // 1020
    System.out.println(0xFFFF_FFFF); /* all 32 bits: -1 */
  }
}
