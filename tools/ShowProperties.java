import java.io.BufferedOutputStream;
import java.io.ByteArrayInputStream;
import java.io.IOException;
import java.io.OutputStream;
import java.nio.charset.StandardCharsets;
import java.nio.file.Files;
import java.nio.file.Paths;
import java.util.Map;
import java.util.Properties;
import java.util.TreeMap;

/**
 * Shows what java.util.Properties reads in the files that the words name, as props_show shows it: a line with the file's
 * name, and then the pairs by rising keys, or a line where it refuses the text.
 */
public class ShowProperties {
    public static void main(String[] names) throws IOException {
        try (OutputStream out = new BufferedOutputStream(System.out)) {
            for (String name : names) {
                put(out, "# " + name + "\n" + shown(Files.readAllBytes(Paths.get(name))));
            }
        }
    }

    static String shown(byte[] text) throws IOException {
        Properties properties = new Properties();
        try {
            properties.load(new ByteArrayInputStream(text));
        } catch (IllegalArgumentException malformed) {
            return "BadEscape\n";
        }
        // strings are in order of their 16-bit units
        Map<String, String> sorted = new TreeMap<>();
        for (String key : properties.stringPropertyNames()) {
            sorted.put(key, properties.getProperty(key));
        }
        StringBuilder all = new StringBuilder();
        for (Map.Entry<String, String> pair : sorted.entrySet()) {
            all.append(written(pair.getKey())).append('=').append(written(pair.getValue())).append('\n');
        }
        return all.toString();
    }

    static String written(String units) {
        StringBuilder text = new StringBuilder();
        for (char unit : units.toCharArray()) {
            if ("\\=:#!".indexOf(unit) >= 0) {
                text.append('\\').append(unit);
            } else if (unit >= '!' && unit <= '~') {
                text.append(unit);
            } else {
                text.append(String.format("\\u%04X", (int) unit));
            }
        }
        return text.toString();
    }

    static void put(OutputStream out, String text) throws IOException {
        out.write(text.getBytes(StandardCharsets.US_ASCII));
    }
}
