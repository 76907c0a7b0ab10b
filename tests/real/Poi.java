import java.io.*;
import java.nio.charset.StandardCharsets;
import java.nio.file.*;
import java.security.MessageDigest;
import java.util.*;
import org.apache.poi.poifs.filesystem.*;

/**
 * Apache POI as a maker and as a reader of compound files: `make FILE PATH DATA..` and `read FILE..`. What is written, and
 * what a path is, are as in lite.pl.
 */
public class Poi {
    static String hex(byte[] bytes) {
        StringBuilder text = new StringBuilder();
        for (byte b : bytes) text.append(String.format("%02x", b));
        return text.toString();
    }

    static void show(String file, String path, DirectoryNode folder) throws Exception {
        for (Entry entry : folder) {
            String name = path + hex(entry.getName().getBytes(StandardCharsets.UTF_16LE));
            if (entry instanceof DirectoryNode) {
                show(file, name + "/", (DirectoryNode) entry);
            } else {
                MessageDigest digest = MessageDigest.getInstance("SHA-256");
                try (InputStream in = folder.createDocumentInputStream(entry)) {
                    byte[] part = new byte[65536];
                    for (int got = in.read(part); got > 0; got = in.read(part)) digest.update(part, 0, got);
                }
                System.out.println(file + "\t" + name + "\t" + hex(digest.digest()));
            }
        }
    }

    public static void main(String[] words) throws Exception {
        if (words[0].equals("make")) {
            try (POIFSFileSystem store = new POIFSFileSystem()) {
                for (int i = 2; i < words.length; i += 2) {
                    String[] names = words[i].split("/");
                    DirectoryEntry folder = store.getRoot();
                    for (int k = 0; k + 1 < names.length; k++) folder = folder.createDirectory(names[k]);
                    try (InputStream in = Files.newInputStream(Paths.get(words[i + 1]))) {
                        folder.createDocument(names[names.length - 1], in);
                    }
                }
                try (OutputStream out = new FileOutputStream(words[1])) {
                    store.writeFilesystem(out);
                }
            }
            return;
        }
        for (String file : Arrays.asList(words).subList(1, words.length)) {
            try (POIFSFileSystem store = new POIFSFileSystem(new File(file), true)) {
                show(file, "", store.getRoot());
            } catch (Exception error) {
                System.out.println(file + "\terror");
            }
        }
    }
}
