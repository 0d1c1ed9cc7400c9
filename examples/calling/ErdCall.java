// Checks a report, or compares two: `ErdCall FILE` or `ErdCall LEFT RIGHT`. Writes the text and ends with the status, as the
// program erd does. It calls the library by JNA. The name "erd" stands for erd.dll on Windows and for liberd.so on Linux.
import com.sun.jna.Library;
import com.sun.jna.Native;
import com.sun.jna.Pointer;
import com.sun.jna.ptr.LongByReference;
import com.sun.jna.ptr.PointerByReference;
import java.io.IOException;
import java.nio.file.Files;
import java.nio.file.Path;

public final class ErdCall {
    // A size of C has 64 bits on every machine that the library is made for.
    public interface Erd extends Library {
        Erd LIBRARY = Native.load("erd", Erd.class);

        int erd_check(byte[] bytes, long size, byte[] prefer, PointerByReference text, LongByReference length);

        int erd_compare(byte[] left, long leftSize, byte[] right, long rightSize, byte[] prefer, PointerByReference text,
                LongByReference length);

        void erd_free(Pointer text);
    }

    // Copies the text, and gives the library its memory back.
    private static byte[] taken(PointerByReference text, LongByReference length) {
        Pointer at = text.getValue();
        if (at == null) {
            return new byte[0];
        }
        byte[] copy = at.getByteArray(0, Math.toIntExact(length.getValue()));
        Erd.LIBRARY.erd_free(at);
        return copy;
    }

    public static void main(String[] names) throws IOException {
        if (names.length != 1 && names.length != 2) {
            System.err.println("usage: ErdCall FILE, or ErdCall LEFT RIGHT");
            System.exit(3);
        }
        PointerByReference text = new PointerByReference();
        LongByReference length = new LongByReference();
        byte[] left = Files.readAllBytes(Path.of(names[0]));
        int outcome;
        if (names.length == 1) {
            outcome = Erd.LIBRARY.erd_check(left, left.length, null, text, length);
        } else {
            byte[] right = Files.readAllBytes(Path.of(names[1]));
            outcome = Erd.LIBRARY.erd_compare(left, left.length, right, right.length, null, text, length);
        }
        System.out.writeBytes(taken(text, length));
        System.out.flush();
        if (outcome >= 3) {
            System.err.println(outcome == 4 ? "no memory" : "too long");
        }
        System.exit(outcome);
    }
}
