/* Builds lines of text, some 11,000,000 units in all. */
public class Strings {
    public static void main(String[] args) {
        int length = 0;
        for (int line = 0; line < 60; line++) {
            String text = "";
            for (int i = 0; i < 300; i++) {
                text += i % 10;
                text += ' ';
            }
            length += text.length();
        }
        System.out.println(length);
    }
}
