package demo;

import api.Net;

/** Switches of both kinds, and a jump back. */
public class Menu {
    static int choose(int key) {
        switch (key) {
            case 3:
                return 30;
            case 4:
                return -400;
            case 5:
                return 50000;
            default:
                return 0;
        }
    }

    static int weigh(int key) {
        switch (key) {
            case -1000:
                return 1;
            case 7:
                return 2;
            case 100000:
                return 3;
        }
        return key;
    }

    public static void main(String[] arguments) {
        int key = Net.read();
        while (choose(key) != 0) {
            Net.send();
            key = weigh(key);
        }
    }
}
