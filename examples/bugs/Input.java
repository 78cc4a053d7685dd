// A number that is read digit by digit, and begins with what stood before it.
class Input {
    static int value = 0;

    static int readNumber() throws Exception {
        int c = System.in.read();
        while (c >= '0' && c <= '9') {
            value = value * 10 + (c - '0');
            c = System.in.read();
        }
        return value;
    }

    public static void main(String[] args) throws Exception {
        int width = readNumber();
        int height = readNumber();
        System.out.println(width + " by " + height);
    }
}
