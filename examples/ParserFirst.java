import org.checkerframework.checker.index.qual.*;

/** Reads sums of numbers, as in 12 + 3, from character codes: right, and rejected. Parser is accepted. */
public class ParserFirst {
    private final int[] text;
    private @IndexOrHigh("text") int at;

    ParserFirst(int[] text) {
        this.text = text;
        this.at = 0;
    }

    private boolean hasMore() {
        return at < text.length;
    }

    private int next() {
        int code = text[at];
        at++;
        return code;
    }

    private void skipBlanks() {
        while (hasMore() && text[at] == 32) {
            at++;
        }
    }

    private int number() {
        int value = 0;
        while (hasMore() && text[at] >= 48 && text[at] <= 57) {
            value = value * 10 + (next() - 48);
        }
        return value;
    }

    private int sum() {
        skipBlanks();
        int sum = number();
        skipBlanks();
        while (hasMore() && text[at] == 43) {
            next();
            skipBlanks();
            sum += number();
            skipBlanks();
        }
        return sum;
    }

    static int parse(int[] text) {
        return new ParserFirst(text).sum();
    }
}
