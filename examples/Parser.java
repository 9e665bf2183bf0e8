import org.checkerframework.checker.index.qual.*;

/** Reads sums of numbers, as in 12 + 3, from character codes. */
public class Parser {
    private final int[] text;
    private @IndexOrHigh("text") int at;

    Parser(int[] text) {
        this.text = text;
        this.at = 0;
    }

    @EnsuresLTLengthOfIf(expression = "at", result = true, targetValue = "text")
    private boolean hasMore() {
        return at < text.length;
    }

    private int next() {
        if (!hasMore()) {
            throw new IllegalStateException("end");
        }
        int code = text[at];
        at++;
        return code;
    }

    private void skipBlanks() {
        while (hasMore() && text[at] == 32) {
            at++;
        }
    }

    private int number() {
        int value = 0;
        while (hasMore() && text[at] >= 48 && text[at] <= 57) {
            value = value * 10 + (next() - 48);
        }
        return value;
    }

    private int sum() {
        skipBlanks();
        int sum = number();
        skipBlanks();
        while (hasMore() && text[at] == 43) {
            next();
            skipBlanks();
            sum += number();
            skipBlanks();
        }
        return sum;
    }

    static int parse(int[] text) {
        return new Parser(text).sum();
    }
}
