// Bouncy Castle makes one key and signs with it. Arguments: the type (1, 2 or 3), and a seed in hexadecimal from which the key is made.
// Standard input: one signature wanted a line, its index in decimal and its message in hexadecimal, - where empty; indices rise. Standard
// output, a line for each: key, message, signature. Going on by one index costs some leaves, so a high index takes long.
import java.io.BufferedReader;
import java.io.IOException;
import java.io.InputStreamReader;
import java.security.GeneralSecurityException;
import java.security.SecureRandom;
import java.util.HexFormat;
import org.bouncycastle.crypto.AsymmetricCipherKeyPair;
import org.bouncycastle.pqc.crypto.xmss.XMSSKeyGenerationParameters;
import org.bouncycastle.pqc.crypto.xmss.XMSSKeyPairGenerator;
import org.bouncycastle.pqc.crypto.xmss.XMSSParameters;
import org.bouncycastle.pqc.crypto.xmss.XMSSPrivateKeyParameters;
import org.bouncycastle.pqc.crypto.xmss.XMSSPublicKeyParameters;
import org.bouncycastle.pqc.crypto.xmss.XMSSSigner;

class BouncyCastleSigns {
    static final HexFormat HEX = HexFormat.of();

    // This generator's bytes follow from the seed alone where the seed is set before the first use.
    static SecureRandom randomFrom(String seed) throws GeneralSecurityException {
        SecureRandom random = SecureRandom.getInstance("SHA1PRNG", "SUN");
        random.setSeed(HEX.parseHex(seed));
        return random;
    }

    static AsymmetricCipherKeyPair make(int type, SecureRandom random) {
        XMSSKeyPairGenerator generator = new XMSSKeyPairGenerator();
        generator.init(new XMSSKeyGenerationParameters(XMSSParameters.lookupByOID(type), random));
        return generator.generateKeyPair();
    }

    static byte[] sign(XMSSPrivateKeyParameters key, int index, byte[] message) {
        if (index > key.getIndex()) key.extractKeyShard(index - key.getIndex());
        if (index != key.getIndex()) throw new IllegalArgumentException("index " + index + " is behind");
        XMSSSigner signer = new XMSSSigner();
        signer.init(true, key);
        return signer.generateSignature(message);
    }

    public static void main(String[] arguments) throws GeneralSecurityException, IOException {
        AsymmetricCipherKeyPair pair = make(Integer.parseInt(arguments[0]), randomFrom(arguments[1]));
        String key = HEX.formatHex(((XMSSPublicKeyParameters) pair.getPublic()).getEncoded());
        BufferedReader in = new BufferedReader(new InputStreamReader(System.in));
        for (String line = in.readLine(); line != null; line = in.readLine()) {
            String[] wanted = line.split(" ");
            byte[] message = wanted[1].equals("-") ? new byte[0] : HEX.parseHex(wanted[1]);
            byte[] signature = sign((XMSSPrivateKeyParameters) pair.getPrivate(), Integer.parseInt(wanted[0]), message);
            System.out.println(key + " " + wanted[1] + " " + HEX.formatHex(signature));
        }
    }
}
