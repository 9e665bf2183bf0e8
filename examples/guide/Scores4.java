import org.checkerframework.checker.index.qual.*;
import org.checkerframework.common.value.qual.*;

/** The results of a game, best first, with the players who had them. */
class Scores {
    private final int[] players;
    private final int @SameLen("players") [] points;
    private @IndexOrHigh("players") int size;

    Scores(@NonNegative int capacity) {
        players = new int[capacity];
        points = new int[capacity];
    }

    @EnsuresLTLengthOfIf(expression = "size", result = true, targetValue = "players")
    private boolean hasRoom() {
        return size < points.length;
    }

    /** Where a result belongs: behind those that are as good. */
    private @IndexOrHigh("players") int placeOf(int result) {
        int low = 0;
        int high = size;
        while (low < high) {
            int middle = (low + high) / 2;
            if (points[middle] >= result) {
                low = middle + 1;
            } else {
                high = middle;
            }
        }
        return low;
    }

    private void copy(@IndexFor("players") int from, @IndexFor("players") int to) {
        players[to] = players[from];
        points[to] = points[from];
    }

    /** Puts a result in. Where the list is full, the last one goes. */
    void add(int player, int result) {
        int place = placeOf(result);
        if (hasRoom()) {
            size++;
        }
        for (int i = size - 1; i > place; i--) {
            copy(i - 1, i);
        }
        players[place] = player;
        points[place] = result;
    }

    /** How many results there are of each number of points up to the most. */
    int[] counts(@IntRange(from = 0, to = 1000000) int most) {
        int[] counts = new int[most + 1];
        for (int i = 0; i < size; i++) {
            int result = points[i];
            if (result >= 0 && result <= most) {
                counts[result]++;
            }
        }
        return counts;
    }

    /** The player with the last of all results. */
    static int last(int[] results) {
        Scores scores = new Scores(3);
        for (int i = 0; i < results.length; i++) {
            scores.add(i, results[i]);
        }
        return scores.players[scores.size - 1];
    }
}
