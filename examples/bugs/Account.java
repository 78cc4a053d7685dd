// A withdrawal that is refused is paid all the same: the balance goes below zero.
class Account {
    private int balance;

    Account(int balance) {
        this.balance = balance;
    }

    boolean covers(int amount) {
        return balance >= amount;
    }

    void withdraw(int amount) {
        if (!covers(amount))
            System.out.println("refused: " + amount);
            balance = balance - amount;
    }

    int balance() {
        return balance;
    }
}

class Main {
    public static void main(String[] args) {
        Account account = new Account(100);
        account.withdraw(30);
        account.withdraw(90);
        System.out.println("balance " + account.balance());
    }
}
