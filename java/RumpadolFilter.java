import java.io.BufferedInputStream;
import java.io.BufferedReader;
import java.io.ByteArrayInputStream;
import java.io.DataInputStream;
import java.io.EOFException;
import java.io.IOException;
import java.io.InputStream;
import java.io.InputStreamReader;
import java.io.InterruptedIOException;
import java.io.OutputStream;
import java.nio.charset.StandardCharsets;
import java.nio.file.Files;
import java.nio.file.Path;
import java.util.ArrayList;
import java.util.Arrays;
import java.util.List;

/**
 * Reads and writes ISO 8583 messages by rumpadol as a child process, without native code in this one. To read it keeps a child
 * until it is closed, writes a frame to it for each message, and reads a line of JSON. To write it starts a child for each list.
 *
 * <p>Threads may share it: a call of decode waits for the one before it.
 */
public final class RumpadolFilter implements AutoCloseable {
    private final String program;
    private final String table;
    private Process decoder;
    private BufferedReader lines;

    /** What rumpadol refused, in its own words. */
    public static final class Refused extends IOException {
        private static final long serialVersionUID = 1;

        Refused(String why) {
            super(why);
        }
    }

    /** The table is ascii87, bcd87 or the path of a document. No child is started before it is wanted. */
    public RumpadolFilter(String program, String table) {
        this.program = program;
        this.table = table;
    }

    /**
     * A message as a line of JSON: {"mti":"0200","elements":{"3":"000000"}}. Bytes that are no message give a line with the fault
     * and its place: {"frame":8,"fault":"Short","element":0,"offset":0}.
     */
    public synchronized String decode(byte[] message) throws IOException {
        if (decoder == null) {
            // what it complains of is in the lines, too
            decoder = new ProcessBuilder(program, "decode", table, "--frames", "binary2", "--json", "--clear")
                    .redirectError(ProcessBuilder.Redirect.DISCARD).start();
            lines = new BufferedReader(new InputStreamReader(decoder.getInputStream(), StandardCharsets.UTF_8));
        }
        String line = null;
        try {
            writeFrame(decoder.getOutputStream(), message);
            line = lines.readLine();
        } catch (IOException ended) {
            // told below
        }
        if (line == null) {
            close();
            throw new EOFException("rumpadol ended: is " + table + " a table?");
        }
        return line;
    }

    /**
     * The bytes of messages that such lines of JSON say, by a child of their own: all of them, or none where one is refused.
     */
    public List<byte[]> encode(List<String> messages) throws IOException {
        if (messages.isEmpty()) {
            return List.of();
        }
        if (messages.stream().anyMatch(message -> message.isBlank() || message.indexOf('\n') >= 0)) {
            throw new IllegalArgumentException("each message is one line");
        }
        Process child = new ProcessBuilder(program, "encode", table, "--frames", "binary2").start();
        Thread writer = new Thread(() -> writeLines(child.getOutputStream(), messages));
        StringBuilder told = new StringBuilder();
        BufferedReader complaints = child.errorReader(StandardCharsets.UTF_8);
        Thread listener = new Thread(() -> complaints.lines().forEach(line -> told.append(line).append('\n')));
        writer.start();
        listener.start();
        byte[] output = child.getInputStream().readAllBytes();
        try {
            writer.join();
            listener.join();
        } catch (InterruptedException interrupted) {
            Thread.currentThread().interrupt();
            child.destroy();
            throw new InterruptedIOException("rumpadol was waited for");
        }
        if (ended(child) != 0) {
            throw new Refused(told.toString().strip());
        }
        List<byte[]> all = new ArrayList<>();
        DataInputStream frames = new DataInputStream(new ByteArrayInputStream(output));
        while (all.size() < messages.size()) {
            all.add(frames.readNBytes(frames.readUnsignedShort()));
        }
        return all;
    }

    /** Writes lines to a child, and ends its input. */
    private static void writeLines(OutputStream to, List<String> lines) {
        try (to) {
            for (String line : lines) {
                to.write((line + "\n").getBytes(StandardCharsets.UTF_8));
            }
        } catch (IOException ended) {
            // the child says why
        }
    }

    /** Writes a frame: a length of two bytes, the high one first, and the message. */
    private static void writeFrame(OutputStream to, byte[] message) throws IOException {
        if (message.length > 65535) {
            throw new IllegalArgumentException("a frame has at most 65,535 bytes");
        }
        byte[] frame = new byte[2 + message.length];
        frame[0] = (byte) (message.length >> 8);
        frame[1] = (byte) message.length;
        System.arraycopy(message, 0, frame, 2, message.length);
        to.write(frame);
        to.flush();
    }

    /** The status with which a child ends. */
    private static int ended(Process child) throws IOException {
        try {
            return child.waitFor();
        } catch (InterruptedException interrupted) {
            Thread.currentThread().interrupt();
            child.destroy();
            throw new InterruptedIOException("rumpadol was waited for");
        }
    }

    /** Ends the child. */
    @Override
    public synchronized void close() throws IOException {
        if (decoder != null) {
            Process child = decoder;
            decoder = null;
            try {
                child.getOutputStream().close();
            } catch (IOException gone) {
                // it has ended by itself
            }
            ended(child);
        }
    }

    /** Tells each message of a file of frames, whose lengths are four digits, and writes it again: PROGRAM TABLE FILE. */
    public static void main(String[] words) throws IOException {
        if (words.length != 3) {
            System.err.println("write RumpadolFilter PROGRAM TABLE FILE");
            System.exit(2);
        }
        try (RumpadolFilter filter = new RumpadolFilter(words[0], words[1]);
                InputStream file = new BufferedInputStream(Files.newInputStream(Path.of(words[2])))) {
            List<byte[]> read = new ArrayList<>();
            List<String> told = new ArrayList<>();
            for (byte[] digits = file.readNBytes(4); digits.length > 0; digits = file.readNBytes(4)) {
                int size = Integer.parseInt(new String(digits, StandardCharsets.US_ASCII));
                byte[] message = file.readNBytes(size);
                if (message.length < size) {
                    throw new EOFException("the file ends inside a frame");
                }
                String json = filter.decode(message);
                System.out.println(json);
                if (json.startsWith("{\"mti\"")) {
                    read.add(message);
                    told.add(json);
                }
            }
            List<byte[]> written = filter.encode(told);
            for (int at = 0; at < read.size(); at++) {
                if (!Arrays.equals(read.get(at), written.get(at))) {
                    System.out.println("message " + at + " was spelled in another way");
                }
            }
            System.out.println(written.size() + " messages written again");
        }
    }
}
