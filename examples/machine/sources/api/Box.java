package api;

/** An object of the library, which keeps a number. */
public class Box {
    private int kept;

    public Box() {
        Trace.call("api/Box <init> ()V");
        Trace.done("api/Box <init> ()V");
    }

    /** One that the library makes itself. */
    Box(int kept) {
        this.kept = kept;
    }

    public void set(int n) {
        Trace.call("api/Box set (I)V", n);
        kept = n;
        Trace.done("api/Box set (I)V");
    }

    public int get() {
        Trace.call("api/Box get ()I");
        return Trace.gives("api/Box get ()I", kept);
    }

    public Box self() {
        Trace.call("api/Box self ()Lapi/Box;");
        return Trace.gives("api/Box self ()Lapi/Box;", "receiver", this);
    }
}
