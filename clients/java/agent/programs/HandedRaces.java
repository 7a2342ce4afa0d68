import java.util.List;
import java.util.Queue;
import java.util.concurrent.ArrayBlockingQueue;
import java.util.concurrent.BlockingQueue;
import java.util.concurrent.ConcurrentLinkedDeque;
import java.util.concurrent.ConcurrentLinkedQueue;
import java.util.concurrent.CopyOnWriteArrayList;
import java.util.concurrent.CyclicBarrier;
import java.util.concurrent.DelayQueue;
import java.util.concurrent.Exchanger;
import java.util.concurrent.LinkedBlockingDeque;
import java.util.concurrent.LinkedBlockingQueue;
import java.util.concurrent.LinkedTransferQueue;
import java.util.concurrent.Phaser;
import java.util.concurrent.PriorityBlockingQueue;
import java.util.concurrent.SynchronousQueue;
import java.util.function.Consumer;

/** Programs that hand something over by a queue, an exchanger, a barrier or a phaser, each with a race. */
public final class HandedRaces {
    static final class Store implements Comparable<Store> {
        int left = 2;
        int sold;

        @Override
        public int compareTo(Store other) {
            return 0;
        }
    }

    private static void rest() throws InterruptedException {
        Thread.sleep(40);
    }

    private static void both(Handed.Body one, Handed.Body other) throws InterruptedException {
        Handed.both(one, other);
    }

    /** What is changed once it was put. */
    static void behindThePut() throws InterruptedException {
        BlockingQueue<Store> orders = new LinkedBlockingQueue<>();
        both(
                () -> {
                    Store store = new Store();
                    orders.put(store);
                    store.left = 4; // race: behindThePut
                },
                () -> {
                    Store store = orders.take();
                    rest();
                    System.out.println(store.left); // race: behindThePut
                });
    }

    /** Who looks into the queue does not come after what others take or put there. */
    static void otherElement() throws InterruptedException {
        BlockingQueue<Integer> orders = new ArrayBlockingQueue<>(8);
        Store store = new Store();
        orders.put(1);
        both(
                () -> {
                    store.left = 4; // race: otherElement
                    orders.put(2);
                },
                () -> {
                    rest();
                    System.out.println(orders.take());
                    System.out.println(store.left); // race: otherElement
                });
    }

    static void otherNode() throws InterruptedException {
        BlockingQueue<Integer> orders = new LinkedBlockingQueue<>();
        Store store = new Store();
        orders.put(1);
        both(
                () -> {
                    store.left = 4; // race: otherNode
                    orders.put(2);
                },
                () -> {
                    rest();
                    System.out.println(orders.take());
                    System.out.println(store.left); // race: otherNode
                });
    }

    /** There is room for the second put without the taking, also if that came first. */
    private static void otherRoom(BlockingQueue<Integer> queue, Handed.Body read, Handed.Body write) throws InterruptedException {
        both(
                () -> {
                    queue.put(1);
                    while (queue.remainingCapacity() < 2) {
                        Thread.onSpinWait();
                    }
                    queue.put(2);
                    read.run();
                },
                () -> {
                    write.run();
                    System.out.println(queue.take());
                });
    }

    static void otherRoomInArray() throws InterruptedException {
        Store store = new Store();
        otherRoom(
                new ArrayBlockingQueue<>(2),
                () -> System.out.println(store.left), // race: otherRoomInArray
                () -> store.left = 7); // race: otherRoomInArray
    }

    static void otherRoomInNodes() throws InterruptedException {
        Store store = new Store();
        otherRoom(
                new LinkedBlockingQueue<>(2),
                () -> System.out.println(store.left), // race: otherRoomInNodes
                () -> store.left = 7); // race: otherRoomInNodes
    }

    static void otherRoomInDeque() throws InterruptedException {
        Store store = new Store();
        otherRoom(
                new LinkedBlockingDeque<>(2),
                () -> System.out.println(store.left), // race: otherRoomInDeque
                () -> store.left = 7); // race: otherRoomInDeque
    }

    static void behindTheRoom() throws InterruptedException {
        BlockingQueue<Integer> queue = new LinkedBlockingQueue<>(1);
        Store store = new Store();
        both(
                () -> {
                    queue.put(1);
                    queue.put(2);
                    System.out.println(store.left); // race: behindTheRoom
                },
                () -> {
                    System.out.println(queue.take());
                    store.left = 7; // race: behindTheRoom
                });
    }

    /** The first put needs no more room than there was before all was taken. */
    private static void otherRoomOfMany(Handed.Body read, Handed.Body write, Consumer<BlockingQueue<Integer>> removeAll)
            throws InterruptedException {
        BlockingQueue<Integer> queue = new ArrayBlockingQueue<>(3, false, List.of(1, 2, 3));
        both(
                () -> {
                    while (queue.remainingCapacity() < 3) {
                        Thread.onSpinWait();
                    }
                    queue.put(4);
                    read.run();
                },
                () -> {
                    queue.take();
                    write.run();
                    removeAll.accept(queue);
                });
    }

    static void otherRoomByClearing() throws InterruptedException {
        Store store = new Store();
        otherRoomOfMany(
                () -> System.out.println(store.left), // race: otherRoomByClearing
                () -> store.left = 7, // race: otherRoomByClearing
                BlockingQueue::clear);
    }

    static void otherRoomByRemoval() throws InterruptedException {
        Store store = new Store();
        otherRoomOfMany(
                () -> System.out.println(store.left), // race: otherRoomByRemoval
                () -> store.left = 7, // race: otherRoomByRemoval
                queue -> queue.removeIf(number -> number > 1));
    }

    static void twoProducers() throws InterruptedException {
        Queue<String> orders = new ConcurrentLinkedQueue<>();
        Store store = new Store();
        both(
                () -> {
                    store.left++; // race: twoProducers
                    orders.add("one");
                },
                () -> {
                    store.left++; // race: twoProducers
                    orders.add("one");
                });
        System.out.println(orders.poll());
    }

    static void twoConsumers() throws InterruptedException {
        BlockingQueue<String> orders = new LinkedBlockingDeque<>();
        Store store = new Store();
        orders.put("one");
        orders.put("one");
        Handed.Body consume =
                () -> {
                    orders.take();
                    store.sold++; // race: twoConsumers
                };
        both(consume, consume);
    }

    static void otherOfDeque() throws InterruptedException {
        ConcurrentLinkedDeque<String> orders = new ConcurrentLinkedDeque<>();
        Store store = new Store();
        both(
                () -> {
                    orders.addFirst("one");
                    store.left = 6; // race: otherOfDeque
                    orders.addLast("two");
                },
                () -> {
                    rest();
                    System.out.println(orders.pollFirst());
                    System.out.println(store.left); // race: otherOfDeque
                });
    }

    static void laterByPriority() throws InterruptedException {
        PriorityBlockingQueue<Integer> orders = new PriorityBlockingQueue<>();
        Store store = new Store();
        both(
                () -> {
                    orders.put(1);
                    store.left = 6; // race: laterByPriority
                    orders.put(2);
                },
                () -> {
                    rest();
                    System.out.println(orders.take());
                    System.out.println(store.left); // race: laterByPriority
                });
    }

    static void laterWithDelay() throws InterruptedException {
        DelayQueue<Handed.Store> orders = new DelayQueue<>();
        Store store = new Store();
        both(
                () -> {
                    orders.put(new Handed.Store());
                    store.left = 6; // race: laterWithDelay
                },
                () -> {
                    orders.take();
                    rest();
                    System.out.println(store.left); // race: laterWithDelay
                });
    }

    static void behindTheHand() throws InterruptedException {
        SynchronousQueue<Store> orders = new SynchronousQueue<>();
        both(
                () -> {
                    Store store = new Store();
                    orders.put(store);
                    store.left = 4; // race: behindTheHand
                },
                () -> {
                    Store store = orders.take();
                    rest();
                    System.out.println(store.left); // race: behindTheHand
                });
    }

    static void behindTheTransfer() throws InterruptedException {
        LinkedTransferQueue<Store> orders = new LinkedTransferQueue<>();
        both(
                () -> {
                    Store store = new Store();
                    orders.transfer(store);
                    store.left = 4; // race: behindTheTransfer
                },
                () -> {
                    Store store = orders.take();
                    rest();
                    System.out.println(store.left); // race: behindTheTransfer
                });
    }

    static void keptAfterExchange() throws InterruptedException {
        Exchanger<Store> exchanger = new Exchanger<>();
        Handed.Body swap =
                () -> {
                    Store own = new Store();
                    Store other = exchanger.exchange(own);
                    own.left++; // race: keptAfterExchange
                    other.left++; // race: keptAfterExchange
                };
        both(swap, swap);
    }

    static void behindTheBarrier() throws InterruptedException {
        CyclicBarrier barrier = new CyclicBarrier(2);
        Store store = new Store();
        Handed.Body meet =
                () -> {
                    barrier.await();
                    store.left++; // race: behindTheBarrier
                    barrier.await();
                };
        both(meet, meet);
    }

    static void onlyArrived() throws InterruptedException {
        Phaser phaser = new Phaser(3);
        Store store = new Store();
        both(
                () -> {
                    store.left = 7; // race: onlyArrived
                    phaser.arrive();
                },
                () -> {
                    rest();
                    phaser.arrive();
                    System.out.println(store.left); // race: onlyArrived
                });
    }

    static void betweenPhases() throws InterruptedException {
        Phaser phaser = new Phaser(2);
        Store store = new Store();
        Handed.Body step =
                () -> {
                    phaser.arriveAndAwaitAdvance();
                    store.left++; // race: betweenPhases
                    phaser.arriveAndAwaitAdvance();
                };
        both(step, step);
    }

    static void behindTheListing() throws InterruptedException {
        List<Store> listeners = new CopyOnWriteArrayList<>();
        both(
                () -> {
                    Store store = new Store();
                    listeners.add(store);
                    store.left = 7; // race: behindTheListing
                },
                () -> {
                    while (listeners.isEmpty()) {
                        Thread.onSpinWait();
                    }
                    rest();
                    for (Store store : listeners) {
                        System.out.println(store.left); // race: behindTheListing
                    }
                });
    }

    private HandedRaces() {}

    public static void main(String[] words) throws Exception {
        HandedRaces.class.getDeclaredMethod(words[0]).invoke(null);
    }
}
