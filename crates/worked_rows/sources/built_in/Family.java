/** Each class below Throwable, by each of its four constructors, and by null. */
public class Family {
    static final Error CAUSE = new Error("cause");

    static void show(Throwable thrown) {
        System.out.print(thrown.getMessage());
        System.out.print(thrown.getCause() == CAUSE ? " cause " : thrown.getCause() == null ? " - " : " another ");
    }

    static void name(Throwable thrown, boolean below) {
        System.out.print(thrown.getClass().getName());
        System.out.println(below);
    }

    static void part0() {
        show(new Throwable());
        show(new Throwable("message"));
        show(new Throwable("message", CAUSE));
        show(new Throwable(CAUSE));
        show(new Throwable(null, null));
        name(new Throwable(), (Object) new Throwable() instanceof Object);
        show(new Exception());
        show(new Exception("message"));
        show(new Exception("message", CAUSE));
        show(new Exception(CAUSE));
        show(new Exception(null, null));
        name(new Exception(), (Object) new Exception() instanceof Throwable);
        show(new Error());
        show(new Error("message"));
        show(new Error("message", CAUSE));
        show(new Error(CAUSE));
        show(new Error(null, null));
        name(new Error(), (Object) new Error() instanceof Throwable);
        show(new RuntimeException());
        show(new RuntimeException("message"));
        show(new RuntimeException("message", CAUSE));
        show(new RuntimeException(CAUSE));
        show(new RuntimeException(null, null));
        name(new RuntimeException(), (Object) new RuntimeException() instanceof Exception);
        show(new CloneNotSupportedException());
        show(new CloneNotSupportedException("message"));
        show(new CloneNotSupportedException("message", CAUSE));
        show(new CloneNotSupportedException(CAUSE));
        show(new CloneNotSupportedException(null, null));
        name(new CloneNotSupportedException(), (Object) new CloneNotSupportedException() instanceof Exception);
        show(new ClassNotFoundException());
        show(new ClassNotFoundException("message"));
        show(new ClassNotFoundException("message", CAUSE));
        show(new ClassNotFoundException(CAUSE));
        show(new ClassNotFoundException(null, null));
        name(new ClassNotFoundException(), (Object) new ClassNotFoundException() instanceof Exception);
        show(new java.io.IOException());
        show(new java.io.IOException("message"));
        show(new java.io.IOException("message", CAUSE));
        show(new java.io.IOException(CAUSE));
        show(new java.io.IOException(null, null));
        name(new java.io.IOException(), (Object) new java.io.IOException() instanceof Exception);
        show(new ArithmeticException());
        show(new ArithmeticException("message"));
        show(new ArithmeticException("message", CAUSE));
        show(new ArithmeticException(CAUSE));
        show(new ArithmeticException(null, null));
        name(new ArithmeticException(), (Object) new ArithmeticException() instanceof RuntimeException);
    }

    static void part1() {
        show(new ArrayStoreException());
        show(new ArrayStoreException("message"));
        show(new ArrayStoreException("message", CAUSE));
        show(new ArrayStoreException(CAUSE));
        show(new ArrayStoreException(null, null));
        name(new ArrayStoreException(), (Object) new ArrayStoreException() instanceof RuntimeException);
        show(new ClassCastException());
        show(new ClassCastException("message"));
        show(new ClassCastException("message", CAUSE));
        show(new ClassCastException(CAUSE));
        show(new ClassCastException(null, null));
        name(new ClassCastException(), (Object) new ClassCastException() instanceof RuntimeException);
        show(new IllegalArgumentException());
        show(new IllegalArgumentException("message"));
        show(new IllegalArgumentException("message", CAUSE));
        show(new IllegalArgumentException(CAUSE));
        show(new IllegalArgumentException(null, null));
        name(new IllegalArgumentException(), (Object) new IllegalArgumentException() instanceof RuntimeException);
        show(new IllegalStateException());
        show(new IllegalStateException("message"));
        show(new IllegalStateException("message", CAUSE));
        show(new IllegalStateException(CAUSE));
        show(new IllegalStateException(null, null));
        name(new IllegalStateException(), (Object) new IllegalStateException() instanceof RuntimeException);
        show(new IndexOutOfBoundsException());
        show(new IndexOutOfBoundsException("message"));
        show(new IndexOutOfBoundsException("message", CAUSE));
        show(new IndexOutOfBoundsException(CAUSE));
        show(new IndexOutOfBoundsException(null, null));
        name(new IndexOutOfBoundsException(), (Object) new IndexOutOfBoundsException() instanceof RuntimeException);
        show(new NegativeArraySizeException());
        show(new NegativeArraySizeException("message"));
        show(new NegativeArraySizeException("message", CAUSE));
        show(new NegativeArraySizeException(CAUSE));
        show(new NegativeArraySizeException(null, null));
        name(new NegativeArraySizeException(), (Object) new NegativeArraySizeException() instanceof RuntimeException);
        show(new NullPointerException());
        show(new NullPointerException("message"));
        show(new NullPointerException("message", CAUSE));
        show(new NullPointerException(CAUSE));
        show(new NullPointerException(null, null));
        name(new NullPointerException(), (Object) new NullPointerException() instanceof RuntimeException);
        show(new UnsupportedOperationException());
        show(new UnsupportedOperationException("message"));
        show(new UnsupportedOperationException("message", CAUSE));
        show(new UnsupportedOperationException(CAUSE));
        show(new UnsupportedOperationException(null, null));
        name(new UnsupportedOperationException(), (Object) new UnsupportedOperationException() instanceof RuntimeException);
    }

    static void part2() {
        show(new NumberFormatException());
        show(new NumberFormatException("message"));
        show(new NumberFormatException("message", CAUSE));
        show(new NumberFormatException(CAUSE));
        show(new NumberFormatException(null, null));
        name(new NumberFormatException(), (Object) new NumberFormatException() instanceof IllegalArgumentException);
        show(new ArrayIndexOutOfBoundsException());
        show(new ArrayIndexOutOfBoundsException("message"));
        show(new ArrayIndexOutOfBoundsException("message", CAUSE));
        show(new ArrayIndexOutOfBoundsException(CAUSE));
        show(new ArrayIndexOutOfBoundsException(null, null));
        name(new ArrayIndexOutOfBoundsException(), (Object) new ArrayIndexOutOfBoundsException() instanceof IndexOutOfBoundsException);
        show(new StringIndexOutOfBoundsException());
        show(new StringIndexOutOfBoundsException("message"));
        show(new StringIndexOutOfBoundsException("message", CAUSE));
        show(new StringIndexOutOfBoundsException(CAUSE));
        show(new StringIndexOutOfBoundsException(null, null));
        name(new StringIndexOutOfBoundsException(), (Object) new StringIndexOutOfBoundsException() instanceof IndexOutOfBoundsException);
        show(new AssertionError());
        show(new AssertionError("message"));
        show(new AssertionError("message", CAUSE));
        show(new AssertionError(CAUSE));
        show(new AssertionError(null, null));
        name(new AssertionError(), (Object) new AssertionError() instanceof Error);
        show(new LinkageError());
        show(new LinkageError("message"));
        show(new LinkageError("message", CAUSE));
        show(new LinkageError(CAUSE));
        show(new LinkageError(null, null));
        name(new LinkageError(), (Object) new LinkageError() instanceof Error);
        show(new VirtualMachineError());
        show(new VirtualMachineError("message"));
        show(new VirtualMachineError("message", CAUSE));
        show(new VirtualMachineError(CAUSE));
        show(new VirtualMachineError(null, null));
        name(new VirtualMachineError(), (Object) new VirtualMachineError() instanceof Error);
        show(new NoClassDefFoundError());
        show(new NoClassDefFoundError("message"));
        show(new NoClassDefFoundError("message", CAUSE));
        show(new NoClassDefFoundError(CAUSE));
        show(new NoClassDefFoundError(null, null));
        name(new NoClassDefFoundError(), (Object) new NoClassDefFoundError() instanceof LinkageError);
        show(new ExceptionInInitializerError());
        show(new ExceptionInInitializerError("message"));
        show(new ExceptionInInitializerError("message", CAUSE));
        show(new ExceptionInInitializerError(CAUSE));
        show(new ExceptionInInitializerError(null, null));
        name(new ExceptionInInitializerError(), (Object) new ExceptionInInitializerError() instanceof LinkageError);
    }

    static void part3() {
        show(new IncompatibleClassChangeError());
        show(new IncompatibleClassChangeError("message"));
        show(new IncompatibleClassChangeError("message", CAUSE));
        show(new IncompatibleClassChangeError(CAUSE));
        show(new IncompatibleClassChangeError(null, null));
        name(new IncompatibleClassChangeError(), (Object) new IncompatibleClassChangeError() instanceof LinkageError);
        show(new ClassCircularityError());
        show(new ClassCircularityError("message"));
        show(new ClassCircularityError("message", CAUSE));
        show(new ClassCircularityError(CAUSE));
        show(new ClassCircularityError(null, null));
        name(new ClassCircularityError(), (Object) new ClassCircularityError() instanceof LinkageError);
        show(new UnsatisfiedLinkError());
        show(new UnsatisfiedLinkError("message"));
        show(new UnsatisfiedLinkError("message", CAUSE));
        show(new UnsatisfiedLinkError(CAUSE));
        show(new UnsatisfiedLinkError(null, null));
        name(new UnsatisfiedLinkError(), (Object) new UnsatisfiedLinkError() instanceof LinkageError);
        show(new AbstractMethodError());
        show(new AbstractMethodError("message"));
        show(new AbstractMethodError("message", CAUSE));
        show(new AbstractMethodError(CAUSE));
        show(new AbstractMethodError(null, null));
        name(new AbstractMethodError(), (Object) new AbstractMethodError() instanceof IncompatibleClassChangeError);
        show(new InstantiationError());
        show(new InstantiationError("message"));
        show(new InstantiationError("message", CAUSE));
        show(new InstantiationError(CAUSE));
        show(new InstantiationError(null, null));
        name(new InstantiationError(), (Object) new InstantiationError() instanceof IncompatibleClassChangeError);
        show(new NoSuchFieldError());
        show(new NoSuchFieldError("message"));
        show(new NoSuchFieldError("message", CAUSE));
        show(new NoSuchFieldError(CAUSE));
        show(new NoSuchFieldError(null, null));
        name(new NoSuchFieldError(), (Object) new NoSuchFieldError() instanceof IncompatibleClassChangeError);
        show(new NoSuchMethodError());
        show(new NoSuchMethodError("message"));
        show(new NoSuchMethodError("message", CAUSE));
        show(new NoSuchMethodError(CAUSE));
        show(new NoSuchMethodError(null, null));
        name(new NoSuchMethodError(), (Object) new NoSuchMethodError() instanceof IncompatibleClassChangeError);
        show(new OutOfMemoryError());
        show(new OutOfMemoryError("message"));
        show(new OutOfMemoryError("message", CAUSE));
        show(new OutOfMemoryError(CAUSE));
        show(new OutOfMemoryError(null, null));
        name(new OutOfMemoryError(), (Object) new OutOfMemoryError() instanceof VirtualMachineError);
    }

    static void part4() {
        show(new StackOverflowError());
        show(new StackOverflowError("message"));
        show(new StackOverflowError("message", CAUSE));
        show(new StackOverflowError(CAUSE));
        show(new StackOverflowError(null, null));
        name(new StackOverflowError(), (Object) new StackOverflowError() instanceof VirtualMachineError);
    }

    public static void main(String[] args) {
        part0();
        part1();
        part2();
        part3();
        part4();
    }
}
