/** A program of objects: a table with chains, a tree, visitors behind an interface, casts, arrays in objects, and text. */
public class Objects {
    interface Visitor {
        void visit(Node node);
    }

    static class Node {
        Node left, right, next;
        int key;
        long value;

        Node(int key) {
            this.key = key;
            this.value = key * 3L;
        }

        long weight() {
            return value;
        }
    }

    static class Heavy extends Node {
        int[] more = new int[4];

        Heavy(int key) {
            super(key);
        }

        long weight() {
            int sum = 0;
            for (int i = 0; i < more.length; i++) {
                sum += more[i];
                more[i] = i + key;
            }
            return sum + value;
        }
    }

    static class Sum implements Visitor {
        long total;

        public void visit(Node node) {
            total += node.weight();
        }
    }

    static class Count implements Visitor {
        int heavy, light;

        public void visit(Node node) {
            if (node instanceof Heavy) {
                heavy += ((Heavy) node).more.length;
            } else {
                light++;
            }
        }
    }

    static class Table {
        Node[] buckets;
        int size;

        Table(int count) {
            buckets = new Node[count];
        }

        int place(int key) {
            return (key & 0x7fffffff) % buckets.length;
        }

        Node find(int key) {
            Node node = buckets[place(key)];
            while (node != null && node.key != key) {
                node = node.next;
            }
            return node;
        }

        void put(Node node) {
            if (size > buckets.length * 2) {
                grow();
            }
            int place = place(node.key);
            node.next = buckets[place];
            buckets[place] = node;
            size++;
        }

        void grow() {
            Node[] old = buckets;
            buckets = new Node[old.length * 2 + 1];
            size = 0;
            for (int i = 0; i < old.length; i++) {
                Node node = old[i];
                while (node != null) {
                    Node next = node.next;
                    put(node);
                    node = next;
                }
            }
        }
    }

    static class Tree {
        Node root;
        int depth;

        void insert(Node node) {
            if (root == null) {
                root = node;
                return;
            }
            Node at = root;
            int here = 0;
            while (true) {
                here++;
                if (node.key < at.key) {
                    if (at.left == null) {
                        at.left = node;
                        break;
                    }
                    at = at.left;
                } else {
                    if (at.right == null) {
                        at.right = node;
                        break;
                    }
                    at = at.right;
                }
            }
            if (here > depth) {
                depth = here;
            }
        }

        void walk(Node node, Visitor visitor) {
            if (node == null) {
                return;
            }
            walk(node.left, visitor);
            visitor.visit(node);
            walk(node.right, visitor);
        }
    }

    static int seed = 12345;

    static int next() {
        seed = seed * 1103515245 + 12345;
        return (seed >>> 8) & 0xffff;
    }

    static String round() {
        Table table = new Table(16);
        Tree tree = new Tree();
        for (int i = 0; i < 300; i++) {
            int key = next();
            if (table.find(key) == null) {
                Node node = (key & 3) == 0 ? new Heavy(key) : new Node(key);
                table.put(node);
                tree.insert(node);
            }
        }
        Sum sum = new Sum();
        Count count = new Count();
        Visitor[] visitors = {sum, count};
        for (int i = 0; i < visitors.length; i++) {
            tree.walk(tree.root, visitors[i]);
        }
        StringBuilder text = new StringBuilder();
        text.append(count.heavy).append(' ').append(count.light).append(' ').append(sum.total);
        return text.toString();
    }

    public static void main(String[] args) {
        for (int i = 0; i < 1000000; i++) {
            if ((i & 1023) == 1023) {
                System.out.println(round());
            } else {
                round();
            }
        }
    }
}
