package demo;

/** Arrays, arithmetic, casts, and the addition of a number that only the wide form holds. */
public class Numbers {
    static final String[] NAMES = { "none", "one" };

    static Object fill(int count) {
        byte[] bytes = new byte[count];
        int at = 0;
        for (int i = -3; i < count; i += 1000) {
            bytes[at] = (byte) (i * 7 % 5 ^ i >>> 2);
            at++;
        }
        return at > 0 ? bytes : (Object) NAMES[0];
    }

    static int length(Object made) {
        if (made instanceof byte[]) {
            return ((byte[]) made).length;
        }
        return made == null ? -1 : made.equals(NAMES) ? 1 : 0;
    }
}
