// Bouncy Castle checks. Standard input: a check a line, key, message, signature in hexadecimal, - where empty. Standard output: its
// version, then a line for each check, "accepted" or "refused", with what it says where it throws.
import java.io.BufferedReader;
import java.io.IOException;
import java.io.InputStreamReader;
import java.nio.ByteBuffer;
import java.util.HexFormat;
import org.bouncycastle.jce.provider.BouncyCastleProvider;
import org.bouncycastle.pqc.crypto.xmss.XMSSParameters;
import org.bouncycastle.pqc.crypto.xmss.XMSSPublicKeyParameters;
import org.bouncycastle.pqc.crypto.xmss.XMSSSigner;

class BouncyCastleChecks {
    static byte[] bytes(String field) {
        return field.equals("-") ? new byte[0] : HexFormat.of().parseHex(field);
    }

    // Bouncy Castle is told the type and then gets the key, which begins with it.
    static boolean accepted(byte[] key, byte[] message, byte[] signature) {
        XMSSParameters parameters = XMSSParameters.lookupByOID(ByteBuffer.wrap(key).getInt());
        XMSSSigner signer = new XMSSSigner();
        signer.init(false, new XMSSPublicKeyParameters.Builder(parameters).withPublicKey(key).build());
        return signer.verifySignature(message, signature);
    }

    static String answer(String[] check) {
        byte[] key = bytes(check[0]), message = bytes(check[1]), signature = bytes(check[2]);
        try {
            return accepted(key, message, signature) ? "accepted" : "refused";
        } catch (IllegalArgumentException error) {
            return "refused: " + error.getMessage();
        }
    }

    public static void main(String[] arguments) throws IOException {
        System.out.println("Bouncy Castle " + new BouncyCastleProvider().getVersionStr());
        BufferedReader in = new BufferedReader(new InputStreamReader(System.in));
        for (String line = in.readLine(); line != null; line = in.readLine()) System.out.println(answer(line.split(" ")));
    }
}
