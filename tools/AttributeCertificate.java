import java.nio.file.*;
import java.security.cert.*;
import java.util.Date;
import org.bouncycastle.cert.*;
import org.bouncycastle.operator.jcajce.*;
import org.bouncycastle.jce.provider.BouncyCastleProvider;

/** AttributeCertificate.java DER ISSUER: what Bouncy Castle reads in an attribute certificate, and whether it is its issuer's today. */
class AttributeCertificate {
    public static void main(String[] files) throws Exception {
        var read = new X509AttributeCertificateHolder(Files.readAllBytes(Path.of(files[0])));
        X509Certificate issuer;
        try (var in = Files.newInputStream(Path.of(files[1]))) {
            issuer = (X509Certificate) CertificateFactory.getInstance("X.509").generateCertificate(in);
        }
        var verifier = new JcaContentVerifierProviderBuilder().setProvider(new BouncyCastleProvider()).build(issuer);
        var named = read.getIssuer().getNames()[0].equals(new X509CertificateHolder(issuer.getEncoded()).getSubject());
        var valid = named && read.isSignatureValid(verifier) && read.isValidOn(new Date());
        System.out.println("role " + read.getAttributes()[0].getAttrType() + " of " + read.getHolder().getSerialNumber() + " by "
            + new X509CertificateHolder(issuer.getEncoded()).getSubject() + ": " + (valid ? "valid" : "not valid"));
    }
}
