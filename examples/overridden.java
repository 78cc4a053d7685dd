// A line that never runs: the class below overrides the method that has it.
class Account {
    int balance = 0;

    void close() {
        System.out.println("closing");
        report();
    }

    void report() {
        System.out.println("balance " + balance);
    }
}

class Savings extends Account {
    void report() {
        System.out.println("savings closed");
    }
}

public class Overridden {
    public static void main(String[] args) {
        Account account = new Savings();
        account.close();
    }
}
