import java.util.*; import java.util.concurrent.*; import java.util.stream.*;
public class GroupPeer {
  static long spin(long x, int n) { long h = x; for (int i = 0; i < n; i++) h = (h ^ i) * 6364136223846793005L + 1442695040888963407L; return h; }
  interface Key { long of(long x); }
  static int run(String how, long n, Key key, ForkJoinPool pool) throws Exception {
    return switch (how) {
      case "loop" -> { HashMap<Long, Long> m = new HashMap<>(); for (long x = 0; x < n; x++) m.merge(key.of(x), 1L, Long::sum); yield m.size(); }
      case "groupingBy" -> pool.submit(() -> LongStream.range(0, n).parallel().boxed().collect(Collectors.groupingBy(key::of, Collectors.counting())).size()).get();
      case "groupingByConcurrent" -> pool.submit(() -> LongStream.range(0, n).parallel().boxed().collect(Collectors.groupingByConcurrent(key::of, Collectors.counting())).size()).get();
      default -> LongStream.range(0, n).boxed().collect(Collectors.groupingBy(key::of, Collectors.counting())).size();
    };
  }
  public static void main(String[] a) throws Exception {
    ForkJoinPool pool = new ForkJoinPool(4);
    long part = a.length > 0 ? Long.parseLong(a[0]) : 1;
    long[][] rows = {{10, 10000000}, {1000, 10000000}, {100000, 10000000}, {1024, 1000000}};
    for (int r = 0; r < rows.length; r++) {
      long k = rows[r][0], n = rows[r][1] / part;
      Key key = r < 3 ? x -> x % k : x -> spin(x, 500) & (k - 1);
      for (String how : new String[]{"loop", "sequential groupingBy", "groupingBy", "groupingByConcurrent"}) {
        double best = 1e9; int came = 0;
        for (int round = 0; round < 6; round++) { long s = System.nanoTime(); came = run(how, n, key, pool); double t = (System.nanoTime() - s) / 1e6; if (round > 1 && t < best) best = t; }
        System.out.printf("%s %d java %s: %.1f ms, %d%n", r < 3 ? "cheap" : "heavy", k, how, best, came);
      }
    }
    System.exit(0);
  }
}
