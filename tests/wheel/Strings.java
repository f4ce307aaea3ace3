// Writes Java's results for all scalar values, 4,096 to a string, to files in the folder that the argument
// names: to `strings` what writeUTF writes, to `cesu8` what the charset CESU-8 writes, and to `lengths` each
// string's length. To `order` it writes how the multiples of STEP compare with one another as
// characters, by compareTo, as 0, 1 or 2.

import java.io.BufferedOutputStream;
import java.io.DataOutputStream;
import java.io.FileOutputStream;
import java.io.IOException;
import java.io.OutputStream;
import java.nio.charset.Charset;
import java.nio.file.Files;
import java.nio.file.Path;

public class Strings {
    private static final int COUNT = 0x1000;
    private static final int STEP = 0x1800;

    public static void main(String[] arguments) throws IOException {
        Path folder = Path.of(arguments[0]);
        StringBuilder all = new StringBuilder();
        try (DataOutputStream strings = file(folder, "strings");
                DataOutputStream lengths = file(folder, "lengths")) {
            for (int first = 0; first <= Character.MAX_CODE_POINT; first += COUNT) {
                String text = scalarValues(first);
                strings.writeUTF(text);
                lengths.writeInt(text.length());
                all.append(text);
            }
        }
        Files.write(folder.resolve("cesu8"), all.toString().getBytes(Charset.forName("CESU-8")));
        try (DataOutputStream order = file(folder, "order")) {
            for (int first = 0; first <= Character.MAX_CODE_POINT; first += STEP) {
                for (int second = 0; second <= Character.MAX_CODE_POINT; second += STEP) {
                    int compared = Character.toString(first).compareTo(Character.toString(second));
                    order.writeByte(Integer.signum(compared) + 1);
                }
            }
        }
    }

    private static DataOutputStream file(Path folder, String name) throws IOException {
        OutputStream bytes = new FileOutputStream(folder.resolve(name).toFile());
        return new DataOutputStream(new BufferedOutputStream(bytes));
    }

    private static String scalarValues(int first) {
        StringBuilder text = new StringBuilder();
        for (int value = first; value < first + COUNT; value++) {
            if (value < Character.MIN_SURROGATE || value > Character.MAX_SURROGATE) {
                text.appendCodePoint(value);
            }
        }
        return text.toString();
    }
}
