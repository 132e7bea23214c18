import java.io.BufferedReader;
import java.io.IOException;
import java.io.InputStreamReader;
import java.lang.management.ManagementFactory;
import java.nio.ByteBuffer;
import java.nio.file.Files;
import java.nio.file.Path;
import java.security.SecureRandom;
import java.util.function.Supplier;
import org.bouncycastle.crypto.CipherParameters;
import org.bouncycastle.crypto.digests.SHA256Digest;
import org.bouncycastle.pqc.crypto.MessageSigner;
import org.bouncycastle.pqc.crypto.lms.HSSPublicKeyParameters;
import org.bouncycastle.pqc.crypto.lms.HSSSigner;
import org.bouncycastle.pqc.crypto.lms.LMOtsParameters;
import org.bouncycastle.pqc.crypto.lms.LMSKeyGenerationParameters;
import org.bouncycastle.pqc.crypto.lms.LMSKeyPairGenerator;
import org.bouncycastle.pqc.crypto.lms.LMSParameters;
import org.bouncycastle.pqc.crypto.lms.LMSPrivateKeyParameters;
import org.bouncycastle.pqc.crypto.lms.LMSPublicKeyParameters;
import org.bouncycastle.pqc.crypto.lms.LMSSigner;
import org.bouncycastle.pqc.crypto.lms.LMSigParameters;
import org.bouncycastle.pqc.crypto.xmss.XMSSKeyGenerationParameters;
import org.bouncycastle.pqc.crypto.xmss.XMSSKeyPairGenerator;
import org.bouncycastle.pqc.crypto.xmss.XMSSParameters;
import org.bouncycastle.pqc.crypto.xmss.XMSSPrivateKeyParameters;
import org.bouncycastle.pqc.crypto.xmss.XMSSPublicKeyParameters;
import org.bouncycastle.pqc.crypto.xmss.XMSSSigner;

/**
 * Bouncy Castle's verdicts and times. The first word is the task; times are the processor's, in milliseconds.
 *
 * <p>verify: each input line has the paths of a public key, a message and a signature, with tabs between them; it
 * prints `verified` or `refused`.
 *
 * <p>time-verify PUBLIC MESSAGE SIGNATURE HASHES: one verification, and this many bare hashes of 55 bytes.
 *
 * <p>time-sign SPEC, lms:H10/W8 or xmss:10: making a key, and signing with it once it is read from its bytes, at leaf 0
 * and at leaf 499.
 *
 * <p>time-session SPEC COUNT, lms:H10/W8, lms:H10/W4 or xmss:10: making a key, and one of COUNT signatures by it while
 * it stays in memory.
 */
public class BouncyCastle {
    static final byte[] MESSAGE = {1};

    public static void main(String[] words) throws Exception {
        switch (words[0]) {
            case "verify" -> verifyLines();
            case "time-verify" -> timeVerify(words);
            case "time-sign" -> timeSign(words[1].equals("xmss:10") ? new XmssKey() : new LmsKey());
            case "time-session" -> timeSession(words[1], Integer.parseInt(words[2]));
            default -> throw new IllegalArgumentException(words[0]);
        }
    }

    static void verifyLines() throws IOException {
        BufferedReader lines = new BufferedReader(new InputStreamReader(System.in));
        for (String line = lines.readLine(); line != null; line = lines.readLine()) {
            String[] paths = line.split("\t");
            System.out.println(verifies(read(paths[0]), read(paths[1]), read(paths[2])) ? "verified" : "refused");
        }
    }

    /** Refuses bytes that don't decode, too. */
    static boolean verifies(byte[] key, byte[] message, byte[] signature) {
        try {
            return verifier(key).verifySignature(message, signature);
        } catch (IOException | RuntimeException malformed) {
            return false;
        }
    }

    static void timeVerify(String[] words) throws IOException {
        byte[] key = read(words[1]);
        byte[] message = read(words[2]);
        byte[] signature = read(words[3]);
        int hashes = Integer.parseInt(words[4]);
        MessageSigner signer = verifier(key);
        double verify = Double.MAX_VALUE;
        double bare = Double.MAX_VALUE;
        for (int round = 0; round < 200; round++) {
            long start = now();
            if (!signer.verifySignature(message, signature)) {
                throw new IllegalStateException("not verified");
            }
            verify = Math.min(verify, since(start));
            start = now();
            hash(hashes);
            bare = Math.min(bare, since(start));
        }
        System.out.println(verify + " " + bare);
    }

    /** The shortest time of three keys, and of three signings at each of two leaves. */
    static void timeSign(Key key) throws IOException {
        double make = Double.MAX_VALUE;
        double first = Double.MAX_VALUE;
        double later = Double.MAX_VALUE;
        for (int round = 0; round < 3; round++) {
            long start = now();
            key.make();
            make = Math.min(make, since(start));
            first = Math.min(first, signing(key.at(0)));
            later = Math.min(later, signing(key.at(499)));
        }
        System.out.println(make + " " + first + " " + later);
    }

    /** The shortest time of three keys, and of a signature in the shortest of three sessions. */
    static void timeSession(String spec, int count) {
        double make = Double.MAX_VALUE;
        double sign = Double.MAX_VALUE;
        for (int round = 0; round < 3; round++) {
            long start = now();
            Session session = spec.equals("xmss:10") ? new XmssSession() : new LmsSession(spec);
            make = Math.min(make, since(start));
            start = now();
            for (int leaf = 0; leaf < count; leaf++) {
                session.sign();
            }
            sign = Math.min(sign, since(start) / count);
        }
        System.out.println(make + " " + sign);
    }

    /** A key in memory that signs. */
    interface Session {
        void sign();
    }

    static class LmsSession implements Session {
        final LMSSigner signer = new LMSSigner();

        LmsSession(String spec) {
            signer.init(true, LmsKey.generated(spec));
        }

        public void sign() {
            signer.generateSignature(MESSAGE);
        }
    }

    static class XmssSession implements Session {
        final XMSSSigner signer = new XMSSSigner();

        XmssSession() {
            XMSSKeyPairGenerator generator = new XMSSKeyPairGenerator();
            XMSSParameters parameters = new XMSSParameters(10, new SHA256Digest());
            generator.init(new XMSSKeyGenerationParameters(parameters, new SecureRandom()));
            signer.init(true, generator.generateKeyPair().getPrivate());
        }

        public void sign() {
            signer.generateSignature(MESSAGE);
        }
    }

    static double signing(Supplier<byte[]> signature) {
        double shortest = Double.MAX_VALUE;
        for (int round = 0; round < 3; round++) {
            long start = now();
            signature.get();
            shortest = Math.min(shortest, since(start));
        }
        return shortest;
    }

    /** A kind of key: how one is made, and how it signs once it is read from its bytes. */
    interface Key {
        void make() throws IOException;

        /** Reads the key's bytes, with this many leaves used, and signs. */
        Supplier<byte[]> at(int leaves) throws IOException;
    }

    /** LMS of H10/W8. Its bytes have no nodes of the tree. */
    static class LmsKey implements Key {
        byte[] bytes;

        static LMSPrivateKeyParameters generated(String spec) {
            LMSKeyPairGenerator generator = new LMSKeyPairGenerator();
            LMOtsParameters oneTime =
                spec.endsWith("W4") ? LMOtsParameters.sha256_n32_w4 : LMOtsParameters.sha256_n32_w8;
            LMSParameters parameters = new LMSParameters(LMSigParameters.lms_sha256_n32_h10, oneTime);
            generator.init(new LMSKeyGenerationParameters(parameters, new SecureRandom()));
            return (LMSPrivateKeyParameters) generator.generateKeyPair().getPrivate();
        }

        public void make() throws IOException {
            bytes = generated("lms:H10/W8").getEncoded();
        }

        public Supplier<byte[]> at(int leaves) {
            // the next leaf comes after the version, two types and I
            byte[] moved = ByteBuffer.wrap(bytes.clone()).putInt(28, leaves).array();
            return () -> {
                try {
                    LMSSigner signer = new LMSSigner();
                    signer.init(true, LMSPrivateKeyParameters.getInstance(moved));
                    return signer.generateSignature(MESSAGE);
                } catch (IOException fault) {
                    throw new IllegalStateException(fault);
                }
            };
        }
    }

    /** XMSS of height 10. Its bytes have the nodes that it keeps. */
    static class XmssKey implements Key {
        final XMSSParameters parameters = new XMSSParameters(10, new SHA256Digest());
        byte[] bytes;

        public void make() throws IOException {
            XMSSKeyPairGenerator generator = new XMSSKeyPairGenerator();
            generator.init(new XMSSKeyGenerationParameters(parameters, new SecureRandom()));
            bytes = ((XMSSPrivateKeyParameters) generator.generateKeyPair().getPrivate()).getEncoded();
        }

        public Supplier<byte[]> at(int leaves) throws IOException {
            XMSSSigner used = new XMSSSigner();
            used.init(true, key(bytes));
            for (int leaf = 0; leaf < leaves; leaf++) {
                used.generateSignature(MESSAGE);
            }
            byte[] moved = ((XMSSPrivateKeyParameters) used.getUpdatedPrivateKey()).getEncoded();
            return () -> {
                XMSSSigner signer = new XMSSSigner();
                signer.init(true, key(moved));
                return signer.generateSignature(MESSAGE);
            };
        }

        XMSSPrivateKeyParameters key(byte[] spelling) {
            return new XMSSPrivateKeyParameters.Builder(parameters).withPrivateKey(spelling).build();
        }
    }

    /** For a key of LMS (56 bytes), HSS (60) or XMSS (68). */
    static MessageSigner verifier(byte[] key) throws IOException {
        return switch (key.length) {
            case 56 -> verifier(new LMSSigner(), LMSPublicKeyParameters.getInstance(key));
            case 60 -> verifier(new HSSSigner(), HSSPublicKeyParameters.getInstance(key));
            default -> {
                int[] heights = {0, 10, 16, 20};
                int height = heights[ByteBuffer.wrap(key).getInt()];
                XMSSParameters parameters = new XMSSParameters(height, new SHA256Digest());
                var read = new XMSSPublicKeyParameters.Builder(parameters).withPublicKey(key).build();
                yield verifier(new XMSSSigner(), read);
            }
        };
    }

    static MessageSigner verifier(MessageSigner signer, CipherParameters key) {
        signer.init(false, key);
        return signer;
    }

    static void hash(int hashes) {
        SHA256Digest digest = new SHA256Digest();
        byte[] block = new byte[55];
        for (int i = 0; i < hashes; i++) {
            digest.update(block, 0, block.length);
            digest.doFinal(block, 0);
        }
    }

    static byte[] read(String path) throws IOException {
        return Files.readAllBytes(Path.of(path));
    }

    static long now() {
        return ManagementFactory.getThreadMXBean().getCurrentThreadCpuTime();
    }

    static double since(long start) {
        return (now() - start) / 1e6;
    }
}
