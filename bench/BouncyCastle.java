// Times Bouncy Castle on the checks of bench/signatures.py, which it reads from standard input, and prints as checks.c does.
// Then times making and signing, and prints as pairs.c does. Its SHA-256 is Java on every machine.
import java.io.IOException;
import java.lang.management.ManagementFactory;
import java.nio.ByteBuffer;
import java.security.SecureRandom;
import java.util.ArrayList;
import java.util.Arrays;
import java.util.List;
import java.util.Locale;
import org.bouncycastle.crypto.AsymmetricCipherKeyPair;
import org.bouncycastle.crypto.digests.SHA256Digest;
import org.bouncycastle.jce.provider.BouncyCastleProvider;
import org.bouncycastle.pqc.crypto.xmss.XMSSKeyGenerationParameters;
import org.bouncycastle.pqc.crypto.xmss.XMSSKeyPairGenerator;
import org.bouncycastle.pqc.crypto.xmss.XMSSParameters;
import org.bouncycastle.pqc.crypto.xmss.XMSSPublicKeyParameters;
import org.bouncycastle.pqc.crypto.xmss.XMSSSigner;

class BouncyCastle {
    // Java compiles while it runs; the rounds that count begin when it has long settled.
    static final int WARM_ROUNDS = 100, ROUNDS = 300;
    // From a new key's first signature on they take longer and longer; the mean of so many is about that of all 1,024.
    static final int PAIRS = 2, SIGNATURES = 256;
    static final XMSSParameters PARAMETERS = new XMSSParameters(10, new SHA256Digest());

    record Check(byte[] key, byte[] message, byte[] signature) {
        boolean accepted() {
            XMSSSigner signer = new XMSSSigner();
            signer.init(false, new XMSSPublicKeyParameters.Builder(PARAMETERS).withPublicKey(key).build());
            return signer.verifySignature(message, signature);
        }

        Check damaged() {
            byte[] other = signature.clone();
            other[other.length - 1] ^= 1;
            return new Check(key, message, other);
        }
    }

    static byte[] next(ByteBuffer file, int length) {
        byte[] bytes = new byte[length];
        file.get(bytes);
        return bytes;
    }

    // The layout is that of struct check in bench.h; the number of compressions is not needed here.
    static List<Check> read() throws IOException {
        List<Check> checks = new ArrayList<>();
        for (ByteBuffer file = ByteBuffer.wrap(System.in.readAllBytes()); file.hasRemaining(); next(file, 2))
            checks.add(new Check(next(file, 68), next(file, 32), next(file, 2500)));
        return checks;
    }

    // Processor time of this thread, as given.c counts it; Bouncy Castle starts no other.
    static long now() {
        return ManagementFactory.getThreadMXBean().getCurrentThreadCpuTime();
    }

    static void timeRound(List<Check> checks, long[] least) {
        for (int i = 0; i < least.length; i++) {
            long start = now();
            if (!checks.get(i).accepted()) throw new IllegalStateException("signature " + i + " is refused");
            least[i] = Math.min(least[i], now() - start);
        }
    }

    static AsymmetricCipherKeyPair make() {
        XMSSKeyPairGenerator generator = new XMSSKeyPairGenerator();
        generator.init(new XMSSKeyGenerationParameters(PARAMETERS, new SecureRandom()));
        return generator.generateKeyPair();
    }

    // The last of so many signatures of one message.
    static Check sign(AsymmetricCipherKeyPair pair) throws IOException {
        XMSSSigner signer = new XMSSSigner();
        signer.init(true, pair.getPrivate());
        byte[] message = new byte[32], signature = null;
        for (int i = 0; i < SIGNATURES; i++) signature = signer.generateSignature(message);
        return new Check(((XMSSPublicKeyParameters) pair.getPublic()).getEncoded(), message, signature);
    }

    static void timePairs() throws IOException {
        long make = Long.MAX_VALUE, sign = Long.MAX_VALUE;
        for (int i = 0; i < PAIRS; i++) {
            long start = now();
            AsymmetricCipherKeyPair pair = make();
            long middle = now();
            Check signed = sign(pair);
            long end = now();
            if (!signed.accepted()) throw new IllegalStateException("its own signature is refused");
            make = Math.min(make, middle - start);
            sign = Math.min(sign, end - middle);
        }
        System.out.printf(Locale.ROOT, "make %d Bouncy Castle%nsign %d Bouncy Castle%n", make, sign / SIGNATURES);
        System.out.println("note Bouncy Castle keeps nodes of its tree between signatures, so its signing is other work: the mean of "
            + SIGNATURES);
    }

    static void timeChecks(List<Check> checks) {
        for (Check check : checks)
            if (check.damaged().accepted()) throw new IllegalStateException("a damaged signature is accepted");
        long[] least = new long[checks.size()];
        for (int round = 0; round < WARM_ROUNDS + ROUNDS; round++) {
            if (round == WARM_ROUNDS) Arrays.fill(least, Long.MAX_VALUE);
            timeRound(checks, least);
        }
        System.out.printf(Locale.ROOT, "check %.1f Bouncy Castle%n", Arrays.stream(least).average().getAsDouble());
    }

    public static void main(String[] arguments) throws IOException {
        timeChecks(read());
        timePairs();
        System.out.printf("note Bouncy Castle %s on Java %s%n", new BouncyCastleProvider().getVersionStr(), Runtime.version());
    }
}
