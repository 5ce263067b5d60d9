import java.nio.file.Files;
import java.nio.file.Path;
import java.nio.file.Paths;
import java.util.HashMap;
import java.util.Map;
import jdk.internal.org.objectweb.asm.ClassReader;
import jdk.internal.org.objectweb.asm.ClassVisitor;
import jdk.internal.org.objectweb.asm.ClassWriter;
import jdk.internal.org.objectweb.asm.Label;
import jdk.internal.org.objectweb.asm.MethodVisitor;
import jdk.internal.org.objectweb.asm.Opcodes;

/**
 * What a Java machine and a rewriting library take for the class files of a folder: `verify FOLDER NAME..` has the machine link
 * each class, which verifies it; `rewrite FOLDER NAME..` reads each file, puts a block before each call of api/Net.send, and writes
 * it. What is printed is the time from the bytes in memory to the end, in milliseconds.
 */
public class Peers {
    private static final class Given extends ClassLoader {
        private final Map<String, byte[]> files;

        Given(Map<String, byte[]> files) {
            super(Given.class.getClassLoader());
            this.files = files;
        }

        @Override
        protected Class<?> findClass(String name) throws ClassNotFoundException {
            byte[] file = files.get(name.replace('.', '/'));
            if (file == null) {
                throw new ClassNotFoundException(name);
            }
            return defineClass(name, file, 0, file.length);
        }
    }

    private static final class Blocks extends MethodVisitor {
        Blocks(MethodVisitor next) {
            super(Opcodes.ASM8, next);
        }

        @Override
        public void visitMethodInsn(int opcode, String owner, String name, String descriptor, boolean isInterface) {
            if (owner.equals("api/Net") && name.equals("send")) {
                block();
            }
            super.visitMethodInsn(opcode, owner, name, descriptor, isInterface);
        }

        /** The check of a counter and of the argument, under the lock of a class, and its update. */
        private void block() {
            Label stop = new Label();
            Label done = new Label();
            super.visitVarInsn(Opcodes.ISTORE, 1);
            super.visitLdcInsn(jdk.internal.org.objectweb.asm.Type.getObjectType("conspec/State"));
            super.visitInsn(Opcodes.MONITORENTER);
            super.visitFieldInsn(Opcodes.GETSTATIC, "conspec/State", "v0", "I");
            super.visitLdcInsn(999998);
            super.visitJumpInsn(Opcodes.IF_ICMPGT, stop);
            super.visitVarInsn(Opcodes.ILOAD, 1);
            super.visitInsn(Opcodes.ICONST_0);
            super.visitJumpInsn(Opcodes.IF_ICMPLT, stop);
            super.visitFieldInsn(Opcodes.GETSTATIC, "conspec/State", "v0", "I");
            super.visitInsn(Opcodes.ICONST_1);
            super.visitInsn(Opcodes.IADD);
            super.visitFieldInsn(Opcodes.PUTSTATIC, "conspec/State", "v0", "I");
            super.visitJumpInsn(Opcodes.GOTO, done);
            super.visitLabel(stop);
            super.visitIntInsn(Opcodes.BIPUSH, 77);
            super.visitMethodInsn(Opcodes.INVOKESTATIC, "java/lang/System", "exit", "(I)V", false);
            super.visitInsn(Opcodes.ACONST_NULL);
            super.visitInsn(Opcodes.ATHROW);
            super.visitLabel(done);
            super.visitLdcInsn(jdk.internal.org.objectweb.asm.Type.getObjectType("conspec/State"));
            super.visitInsn(Opcodes.MONITOREXIT);
            super.visitVarInsn(Opcodes.ILOAD, 1);
        }
    }

    private static byte[] rewritten(byte[] file) {
        ClassReader reader = new ClassReader(file);
        ClassWriter writer = new ClassWriter(ClassWriter.COMPUTE_MAXS);
        reader.accept(new ClassVisitor(Opcodes.ASM8, writer) {
            @Override
            public MethodVisitor visitMethod(int access, String name, String descriptor, String signature, String[] thrown) {
                return new Blocks(super.visitMethod(access, name, descriptor, signature, thrown));
            }
        }, 0);
        return writer.toByteArray();
    }

    public static void main(String[] words) throws Exception {
        Map<String, byte[]> files = new HashMap<>();
        for (int i = 2; i < words.length; i++) {
            files.put(words[i], Files.readAllBytes(Paths.get(words[1], words[i] + ".class")));
        }
        Path state = Paths.get(words[1], "conspec/State.class");
        if (Files.exists(state)) {
            files.put("conspec/State", Files.readAllBytes(state));
        }
        long begun = System.nanoTime();
        long bytes = 0;
        Given given = new Given(files);
        for (Map.Entry<String, byte[]> entry : files.entrySet()) {
            bytes += words[0].equals("verify") ? entry.getValue().length : rewritten(entry.getValue()).length;
            if (words[0].equals("verify")) {
                Class.forName(entry.getKey().replace('/', '.'), true, given);
            }
        }
        System.out.printf("%s: %d files, %d bytes, %.0f ms%n", words[0], files.size(), bytes, (System.nanoTime() - begun) / 1e6);
    }
}
