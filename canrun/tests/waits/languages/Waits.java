// Waits of Java: prints of each `NAME MILLISECONDS MICROSECONDS RESULT`. See ../main.c.
import java.net.InetAddress;
import java.net.ServerSocket;
import java.net.Socket;
import java.net.SocketTimeoutException;
import java.util.Map;
import java.util.TreeMap;
import java.util.concurrent.*;
import java.util.concurrent.locks.LockSupport;
import java.util.concurrent.locks.ReentrantLock;

public class Waits {
    static final Map<String, Callable<Object>> CASES = new TreeMap<>();
    static final ScheduledExecutorService LATE = Executors.newScheduledThreadPool(4);

    static void late(Runnable call) {
        LATE.schedule(call, 30, TimeUnit.MILLISECONDS);
    }

    static void note() {
        CASES.put("sleep", () -> {
            Thread.sleep(30);
            return 0;
        });
        CASES.put("object_wait", () -> {
            Object one = new Object();
            synchronized (one) {
                one.wait(30);
            }
            return 0;
        });
        CASES.put("park_nanos", () -> {
            long end = System.nanoTime() + 30_000_000;
            for (long left; (left = end - System.nanoTime()) > 0;) {
                LockSupport.parkNanos(left);
            }
            return 0;
        });
        CASES.put("lock", () -> {
            ReentrantLock one = new ReentrantLock();
            one.lock();
            return CompletableFuture.supplyAsync(() -> {
                try {
                    return one.tryLock(30, TimeUnit.MILLISECONDS);
                } catch (InterruptedException interrupted) {
                    return null;
                }
            }, LATE).get();
        });
        CASES.put("latch", () -> {
            CountDownLatch one = new CountDownLatch(1);
            late(one::countDown);
            return one.await(4, TimeUnit.SECONDS);
        });
        CASES.put("queue", () -> new LinkedBlockingQueue<Integer>().poll(30, TimeUnit.MILLISECONDS));
        CASES.put("future", () -> {
            CompletableFuture<Integer> one = new CompletableFuture<>();
            late(() -> one.complete(7));
            return one.get(4, TimeUnit.SECONDS);
        });
        CASES.put("future_timeout", () -> {
            try {
                return new CompletableFuture<Integer>().get(30, TimeUnit.MILLISECONDS);
            } catch (TimeoutException over) {
                return "over";
            }
        });
        CASES.put("join", () -> {
            Thread one = new Thread(() -> LockSupport.parkNanos(4_000_000_000L));
            one.setDaemon(true);
            one.start();
            one.join(30);
            return one.isAlive();
        });
        CASES.put("interrupt", () -> {
            Thread self = Thread.currentThread();
            late(self::interrupt);
            try {
                Thread.sleep(4000);
                return 0;
            } catch (InterruptedException interrupted) {
                return "interrupted";
            }
        });
        CASES.put("process", () -> new ProcessBuilder("sh", "-c", "sleep 0.03; exit 5").start().waitFor());
        CASES.put("socket_timeout", () -> {
            try (ServerSocket server = new ServerSocket(0, 5, InetAddress.getLoopbackAddress());
                    Socket client = new Socket(server.getInetAddress(), server.getLocalPort())) {
                client.setSoTimeout(30);
                return client.getInputStream().read();
            } catch (SocketTimeoutException over) {
                return "over";
            }
        });
        CASES.put("accept", () -> {
            try (ServerSocket server = new ServerSocket(0, 5, InetAddress.getLoopbackAddress())) {
                server.setSoTimeout(30);
                return server.accept();
            } catch (SocketTimeoutException over) {
                return "over";
            }
        });
    }

    public static void main(String[] words) throws Exception {
        note();
        for (String name : CASES.keySet()) {
            CASES.get(name); // Their classes are there before.
        }
        Thread.sleep(1);
        for (Map.Entry<String, Callable<Object>> one : CASES.entrySet()) {
            long begun = System.nanoTime();
            Object result = one.getValue().call();
            System.out.println(one.getKey() + " 30 " + (System.nanoTime() - begun + 500) / 1000 + " " + result);
        }
        System.exit(0);
    }
}
