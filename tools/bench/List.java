/* Objects in a linked list: 100,000 are made, and the list is gone through four times. */
public class List {
    private int value;
    private List next;

    List(int value, List next) {
        this.value = value;
        this.next = next;
    }

    static int sum(List list) {
        int sum = 0;
        while (list != null) {
            sum += list.value;
            list = list.next;
        }
        return sum;
    }

    public static void main(String[] args) {
        List list = null;
        for (int i = 0; i < 100000; i++) {
            list = new List(i, list);
        }
        for (int turn = 0; turn < 4; turn++) {
            System.out.println(sum(list));
        }
    }
}
