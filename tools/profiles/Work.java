// Threads that sort, count and put strings together.
import java.util.*;

public class Work {
    static int work(int seed, int rounds) {
        int sum = 0;
        Random random = new Random(seed);
        for (int k = 0; k < rounds; k++) {
            List<String> words = new ArrayList<>();
            for (int i = 0; i < 2000; i++) words.add("w" + random.nextInt(5000));
            Collections.sort(words);
            Map<String, Integer> counts = new HashMap<>();
            for (String word : words) counts.merge(word, 1, Integer::sum);
            sum += counts.size() + String.join(",", words).hashCode() % 7;
        }
        return sum;
    }

    public static void main(String[] arguments) throws Exception {
        Thread[] threads = new Thread[4];
        int[] sums = new int[4];
        for (int k = 0; k < 4; k++) {
            final int n = k;
            threads[k] = new Thread(() -> sums[n] = work(n, Integer.parseInt(arguments[0])));
            threads[k].start();
        }
        for (Thread thread : threads) thread.join();
        System.out.println(Arrays.stream(sums).sum());
    }
}
