// For tests/dist.sh: the strings of the JDK's own class files. It writes each once to the file `strings` in
// the current folder, after the count of its bytes, as the class files have it. To `units` it writes a line
// with the UTF-16 code units that `readUTF` reads of it, in hexadecimal. It prints the number of strings, and
// the number of those with an unpaired surrogate.

import java.io.BufferedOutputStream;
import java.io.BufferedWriter;
import java.io.ByteArrayInputStream;
import java.io.DataInputStream;
import java.io.IOException;
import java.io.OutputStream;
import java.net.URI;
import java.nio.ByteBuffer;
import java.nio.file.FileSystems;
import java.nio.file.Files;
import java.nio.file.Path;
import java.util.Arrays;
import java.util.LinkedHashSet;
import java.util.List;
import java.util.Set;
import java.util.stream.Collectors;
import java.util.stream.Stream;

public class Constants {
    /** How many bytes follow the tag of a constant, for each tag of the Java Virtual Machine Specification
     * (4.4), or -1 if there is no such tag. */
    private static final int[] LENGTHS = {-1, 0, -1, 4, 4, 8, 8, 2, 2, 4, 4, 4, 4, -1, -1, 3, 2, 4, 4, 2, 2};

    public static void main(String[] args) throws IOException {
        Set<ByteBuffer> strings = new LinkedHashSet<>();
        Path root = FileSystems.getFileSystem(URI.create("jrt:/")).getPath("/modules");
        List<Path> files;
        try (Stream<Path> all = Files.walk(root)) {
            files = all.filter(file -> file.toString().endsWith(".class")).collect(Collectors.toList());
        }
        for (Path file : files) {
            addStrings(Files.readAllBytes(file), strings);
        }
        int alone = 0;
        try (OutputStream copies = new BufferedOutputStream(Files.newOutputStream(Path.of("strings")));
            BufferedWriter units = Files.newBufferedWriter(Path.of("units"))) {
            for (ByteBuffer string : strings) {
                byte[] bytes = string.array();
                String text = new DataInputStream(new ByteArrayInputStream(bytes)).readUTF();
                copies.write(bytes);
                units.write(hexadecimal(text) + '\n');
                // `codePoints` joins pairs, so a surrogate is left only if it is unpaired.
                if (text.codePoints().anyMatch(point -> 0xD800 <= point && point <= 0xDFFF)) {
                    alone++;
                }
            }
        }
        System.out.println(strings.size() + " " + alone);
    }

    /** Adds the strings of a class file's constant pool, each with the two bytes that count it. */
    private static void addStrings(byte[] file, Set<ByteBuffer> strings) {
        ByteBuffer bytes = ByteBuffer.wrap(file);
        int end = bytes.getShort(8) & 0xFFFF;
        int at = 10;
        for (int index = 1; index < end; index++) {
            int tag = bytes.get(at++);
            int length = LENGTHS[tag];
            if (tag == 1) {
                length = 2 + (bytes.getShort(at) & 0xFFFF);
                strings.add(ByteBuffer.wrap(Arrays.copyOfRange(file, at, at + length)));
            } else if (tag == 5 || tag == 6) {
                index++;
            }
            at += length;
        }
    }

    private static String hexadecimal(String text) {
        StringBuilder hexadecimal = new StringBuilder();
        for (char unit : text.toCharArray()) {
            hexadecimal.append(hexadecimal.length() == 0 ? "" : " ");
            for (int shift = 12; shift >= 0; shift -= 4) {
                hexadecimal.append("0123456789ABCDEF".charAt(unit >> shift & 0xF));
            }
        }
        return hexadecimal.toString();
    }
}
