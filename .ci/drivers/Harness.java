import java.io.*;
import java.lang.reflect.*;
import java.nio.file.*;
import java.util.*;
import jdk.internal.org.objectweb.asm.*;

/** What a drawn program may throw. */
class Fault extends RuntimeException {
    Fault() { }

    Fault(String text) { super(text); }
}

/** A method's code with a call of Accesses before each read and write of an element. */
class Watched extends MethodVisitor {
    static final List<Integer> READS = List.of(Opcodes.IALOAD, Opcodes.AALOAD, Opcodes.BALOAD);
    static final List<Integer> WRITES = List.of(Opcodes.IASTORE, Opcodes.AASTORE, Opcodes.BASTORE);
    int line;
    /** How much was seen of what begins a list of values: 1 behind a new array, 2 behind its copy. A 0 comes next. */
    int seen;

    Watched(MethodVisitor below) { super(Opcodes.ASM7, below); }

    void tell(String call, String type) {
        super.visitLdcInsn(line);
        super.visitMethodInsn(Opcodes.INVOKESTATIC, "Harness$Accesses", call, type, false);
    }

    @Override public void visitLineNumber(int number, Label at) {
        line = number;
        super.visitLineNumber(number, at);
    }

    @Override public void visitInsn(int code) {
        if (seen == 2 && code == Opcodes.ICONST_0) {
            super.visitInsn(Opcodes.DUP);
            super.visitMethodInsn(Opcodes.INVOKESTATIC, "Harness$Accesses", "filling", "(Ljava/lang/Object;)V", false);
        }
        seen = seen == 1 && code == Opcodes.DUP ? 2 : 0;
        if (READS.contains(code)) {
            super.visitInsn(Opcodes.DUP2);
            tell("read", "(Ljava/lang/Object;II)V");
        } else if (WRITES.contains(code)) {
            // array, index, value: the value below the copies of the others, and back.
            super.visitInsn(Opcodes.DUP_X2);
            super.visitInsn(Opcodes.POP);
            super.visitInsn(Opcodes.DUP2);
            tell("write", "(Ljava/lang/Object;II)V");
            super.visitInsn(Opcodes.DUP2_X1);
            super.visitInsn(Opcodes.POP2);
        }
        super.visitInsn(code);
    }

    @Override public void visitIntInsn(int code, int operand) {
        seen = code == Opcodes.NEWARRAY ? 1 : 0;
        super.visitIntInsn(code, operand);
    }

    @Override public void visitTypeInsn(int code, String type) {
        seen = code == Opcodes.ANEWARRAY ? 1 : 0;
        super.visitTypeInsn(code, type);
    }

    @Override public void visitVarInsn(int code, int variable) {
        seen = 0;
        super.visitVarInsn(code, variable);
    }

    @Override public void visitFieldInsn(int code, String owner, String name, String type) {
        seen = 0;
        super.visitFieldInsn(code, owner, name, type);
    }
}

/** Loads the drawn programs with their accesses watched. */
class Watching extends ClassLoader {
    final Path room;

    Watching(Path room) {
        super(Watching.class.getClassLoader());
        this.room = room;
    }

    @Override protected Class<?> loadClass(String name, boolean resolve) throws ClassNotFoundException {
        Class<?> loaded = findLoadedClass(name);
        if (loaded != null) return loaded;
        if (!name.matches("Fault|(Main|Base|Below)\\d+")) return super.loadClass(name, resolve);
        try {
            ClassWriter made = new ClassWriter(ClassWriter.COMPUTE_MAXS);
            new ClassReader(Files.readAllBytes(room.resolve(name + ".class"))).accept(new ClassVisitor(Opcodes.ASM7, made) {
                @Override public MethodVisitor visitMethod(int access, String method, String type, String signature, String[] thrown) {
                    return new Watched(super.visitMethod(access, method, type, signature, thrown));
                }
            }, 0);
            byte[] bytes = made.toByteArray();
            return defineClass(name, bytes, 0, bytes.length);
        } catch (IOException cause) {
            throw new ClassNotFoundException(name, cause);
        }
    }
}

/** Runs drawn programs: of each line of a file the class and the words of its inputs. Prints of each run its line, the accesses and the printed values in order, and how it ended. */
public class Harness {
    /** What an access of an array does besides: it is printed among the program's values, before it is made. */
    public static class Accesses {
        /** Arrays that a list of values is being written to, each with how many of these are still to come: such a write is no access. */
        static final Map<Object, Integer> FILLED = new IdentityHashMap<>();

        public static void filling(Object array) {
            FILLED.put(array, Array.getLength(array));
        }

        public static void read(Object array, int index, int line) {
            if (array != null) System.out.println("access: index " + index + ", length " + Array.getLength(array) + ", line " + line);
        }

        public static void write(Object array, int index, int line) {
            Integer left = array == null ? null : FILLED.remove(array);
            if (left == null) read(array, index, line);
            else if (left > 1) FILLED.put(array, left - 1);
        }
    }

    static Object input(Class<?> type, String word) {
        if (type == int.class) return Integer.parseInt(word);
        if (type == boolean.class) return word.equals("true");
        String inner = word.substring(1, word.length() - 1);
        return inner.isEmpty() ? new int[0] : Arrays.stream(inner.split(",")).mapToInt(Integer::parseInt).toArray();
    }

    static String ended(Method method, Object value) {
        if (method.getReturnType() == void.class) return "ended";
        if (value == null) return "ended: null";
        if (value.getClass().isArray()) return "ended: array of length " + Array.getLength(value);
        if (value instanceof Integer || value instanceof Boolean) return "ended: " + value;
        return "ended: object " + value.getClass().getName();
    }

    static String stopped(Throwable cause) {
        String text = "other: " + cause;
        if (cause instanceof ArrayIndexOutOfBoundsException)
            text = cause.getMessage().replaceAll("Index (-?\\d+) out of bounds for length (\\d+)", "outside: index $1, length $2");
        else if (cause instanceof NegativeArraySizeException) text = "negative length: " + cause.getMessage();
        else if (cause instanceof NullPointerException) text = "null";
        else if (cause instanceof ArithmeticException) text = "zero divisor";
        else if (cause.getClass().getName().equals("Fault")) text = "thrown: Fault";
        return text + ", line " + cause.getStackTrace()[0].getLineNumber();
    }

    public static void main(String[] words) throws Exception {
        PrintStream out = new PrintStream(new FileOutputStream(FileDescriptor.out), false);
        Path runs = Path.of(words[0]);
        ClassLoader loader = new Watching(runs.toAbsolutePath().getParent());
        for (String line : Files.readAllLines(runs)) {
            String[] parts = line.split(" "), entry = parts[0].split("\\.");
            ByteArrayOutputStream printed = new ByteArrayOutputStream();
            System.setOut(new PrintStream(printed, true));
            String[] ending = { "other: no end in 20 seconds" };
            Thread thread = new Thread(() -> {
                try {
                    for (Method method : Class.forName(entry[0], true, loader).getDeclaredMethods()) {
                        if (!method.getName().equals(entry[1])) continue;
                        method.setAccessible(true);
                        Object[] inputs = new Object[parts.length - 1];
                        for (int i = 0; i < inputs.length; i++) inputs[i] = input(method.getParameterTypes()[i], parts[i + 1]);
                        ending[0] = ended(method, method.invoke(null, inputs));
                    }
                } catch (InvocationTargetException thrown) {
                    ending[0] = stopped(thrown.getCause());
                } catch (Throwable thrown) {
                    ending[0] = "other: " + thrown;
                }
            });
            thread.setDaemon(true);
            thread.start();
            thread.join(20000);
            out.println("run " + line);
            out.print(printed.toString());
            out.println(ending[0]);
        }
        out.flush();
        System.exit(0);
    }
}
