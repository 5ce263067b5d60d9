package pins;

/** Tries the numbers that are named, in their order, until one opens the card. */
public final class Main {
    private Main() {}

    public static void main(String[] words) {
        Numbers numbers = new Numbers(words);
        try {
            while (!Attempt.opens(numbers.next())) {
                System.out.println("wrong");
            }
            System.out.println("opened");
        } catch (NoMore e) {
            System.out.println(e.getMessage());
        }
    }
}
