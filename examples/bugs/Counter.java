// Two counters share one count, since the field is static.
class Counter {
    static int count = 0;

    void press() {
        count++;
    }

    int count() {
        return count;
    }
}

class Main {
    public static void main(String[] args) {
        Counter doors = new Counter();
        Counter windows = new Counter();
        doors.press();
        doors.press();
        windows.press();
        System.out.println("windows " + windows.count());
    }
}
