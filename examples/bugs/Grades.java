// The average of no grade is asked for, since the list that is read is not the list that was filled.
class Grades {
    int[] marks = new int[10];
    int count;

    void add(int mark) {
        int count = this.count;
        marks[count] = mark;
        count = count + 1;
    }

    int average() {
        int sum = 0;
        for (int i = 0; i < count; i++) {
            sum = sum + marks[i];
        }
        return sum / count;
    }
}

class Main {
    public static void main(String[] args) {
        Grades grades = new Grades();
        grades.add(7);
        grades.add(9);
        System.out.println("average " + grades.average());
    }
}
