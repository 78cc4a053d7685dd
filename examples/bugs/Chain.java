// The first node of a list is never removed: the loop begins behind it.
class Node {
    int value;
    Node next;

    Node(int value, Node next) {
        this.value = value;
        this.next = next;
    }
}

class Chain {
    Node first;

    void push(int value) {
        first = new Node(value, first);
    }

    void remove(int value) {
        Node node = first;
        while (node.next != null) {
            if (node.next.value == value) {
                node.next = node.next.next;
                return;
            }
            node = node.next;
        }
    }

    public static void main(String[] args) {
        Chain chain = new Chain();
        chain.push(3);
        chain.push(2);
        chain.push(1);
        chain.remove(1);
        System.out.println("first is " + chain.first.value);
    }
}
