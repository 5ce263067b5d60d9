package run;

import api.Out;

/** Numbers that are made narrow. */
public final class Narrowing {
    public static void main(String[] words) {
        int[] numbers = {0, 127, 128, 255, 256, -129, 32767, 32768, -32769, 65535, 65536, 2147483647, -2147483648};
        for (int n : numbers) {
            Out.narrow((byte) n, (short) n, (char) n);
            Out.five((byte) (char) n, (char) (byte) n, (short) (char) n, (char) (short) n, (byte) (short) n);
        }
        byte b = 127;
        b++;
        short s = -32768;
        s--;
        char c = 0;
        c--;
        Out.narrow(b, s, c);
        b += 200;
        s *= 3;
        c >>= 1;
        Out.narrow(b, s, c);
        Out.put(b + s + c);
    }
}
