// The JDK's part of tests/peers.sh. For each file of the folder `texts`, which is UTF-8, it writes to the
// folder `java` the text in both encodings, as NAME.mutf8 and NAME.cesu8, and with the length prefix, as
// NAME.string. It also decodes the program's files of these names in the folder `ours`, and writes the texts
// as NAME.mutf8.utf8, NAME.cesu8.utf8 and NAME.string.utf8. To `java/constant` it copies a constant from its
// own class file, as `javac` wrote it. A file that cannot be made is omitted, and standard error says why.

import java.io.ByteArrayInputStream;
import java.io.ByteArrayOutputStream;
import java.io.DataInputStream;
import java.io.DataOutputStream;
import java.io.IOException;
import java.nio.charset.Charset;
import java.nio.charset.StandardCharsets;
import java.nio.file.DirectoryStream;
import java.nio.file.Files;
import java.nio.file.Path;
import java.util.Arrays;

public class Peer {
    private static final Charset CESU_8 = Charset.forName("CESU-8");

    /** U+0061, U+0000, U+00E9, U+20AC and U+1F496. The class file has it in MUTF-8. */
    private static final String CONSTANT = "a\0\u00E9\u20AC\uD83D\uDC96";

    private interface Maker {
        byte[] make() throws IOException;
    }

    public static void main(String[] args) throws IOException {
        try (DirectoryStream<Path> texts = Files.newDirectoryStream(Path.of("texts"))) {
            for (Path text : texts) {
                answer(text);
            }
        }
        write("constant", () -> constant(Files.readAllBytes(Path.of("classes", "Peer.class"))));
    }

    private static void answer(Path file) throws IOException {
        String name = file.getFileName().toString();
        String text = new String(Files.readAllBytes(file), StandardCharsets.UTF_8);
        write(name + ".mutf8", () -> writeUncounted(text));
        write(name + ".cesu8", () -> text.getBytes(CESU_8));
        write(name + ".string", () -> writeUtf(text));
        write(name + ".mutf8.utf8", () -> utf8(readCounted(ours(name + ".mutf8"))));
        write(name + ".cesu8.utf8", () -> utf8(new String(ours(name + ".cesu8"), CESU_8)));
        write(name + ".string.utf8", () -> utf8(readUtf(ours(name + ".string"))));
    }

    private static void write(String name, Maker maker) throws IOException {
        byte[] bytes;
        try {
            bytes = maker.make();
        } catch (IOException fault) {
            System.err.println(name + ": " + fault);
            return;
        }
        Files.write(Path.of("java", name), bytes);
    }

    private static byte[] ours(String name) throws IOException {
        return Files.readAllBytes(Path.of("ours", name));
    }

    private static byte[] utf8(String text) {
        return text.getBytes(StandardCharsets.UTF_8);
    }

    /** The bytes that writeUTF writes. */
    private static byte[] writeUtf(String text) throws IOException {
        ByteArrayOutputStream written = new ByteArrayOutputStream();
        new DataOutputStream(written).writeUTF(text);
        return written.toByteArray();
    }

    /** The bytes that writeUTF writes, without the two that count them. */
    private static byte[] writeUncounted(String text) throws IOException {
        byte[] written = writeUtf(text);
        return Arrays.copyOfRange(written, 2, written.length);
    }

    /** The string that readUTF reads from these bytes, all of which it must read. */
    private static String readUtf(byte[] bytes) throws IOException {
        DataInputStream in = new DataInputStream(new ByteArrayInputStream(bytes));
        String text = in.readUTF();
        if (in.read() != -1) {
            throw new IOException("bytes after the string");
        }
        return text;
    }

    /** The string that readUTF reads from these bytes, after two that count them. */
    private static String readCounted(byte[] bytes) throws IOException {
        if (bytes.length > 65_535) {
            throw new IOException("too long for readUTF");
        }
        ByteArrayOutputStream counted = new ByteArrayOutputStream();
        DataOutputStream out = new DataOutputStream(counted);
        out.writeShort(bytes.length);
        out.write(bytes);
        return readUtf(counted.toByteArray());
    }

    /** The bytes of CONSTANT in the constant pool of a class file, their count included. */
    private static byte[] constant(byte[] file) throws IOException {
        DataInputStream in = new DataInputStream(new ByteArrayInputStream(file));
        // The magic number and the version of the format.
        in.skipBytes(8);
        int entries = in.readUnsignedShort();
        for (int entry = 1; entry < entries; entry++) {
            int tag = in.readUnsignedByte();
            // Tag 1 is a string's bytes, which readUTF reads.
            if (tag == 1) {
                int start = file.length - in.available();
                if (in.readUTF().equals(CONSTANT)) {
                    return Arrays.copyOfRange(file, start, file.length - in.available());
                }
            } else {
                in.skipBytes(lengthOf(tag));
                // Numbers of eight bytes count as two entries.
                if (tag == 5 || tag == 6) {
                    entry++;
                }
            }
        }
        throw new IOException("the class file does not have the constant");
    }

    /** The length of an entry of the constant pool, of any tag but that of a string's bytes. */
    private static int lengthOf(int tag) throws IOException {
        switch (tag) {
            case 7: case 8: case 16: case 19: case 20:
                return 2;
            case 15:
                return 3;
            case 3: case 4: case 9: case 10: case 11: case 12: case 17: case 18:
                return 4;
            case 5: case 6:
                return 8;
            default:
                throw new IOException("a tag of the constant pool that is not known: " + tag);
        }
    }
}
