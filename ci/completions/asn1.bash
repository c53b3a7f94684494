# Completions of asn1show, asn1der, asn1check and asn1compile for bash.

_asn1() {
    local word=${COMP_WORDS[COMP_CWORD]} options=
    case $1 in
        *asn1show) options='--ber --der --cer --hex --pem --bytes --check --depth --at --extract --contents --dump --json --html --module --type --incomplete --decimal --width --help --version' ;;
        *asn1der) options='--strict --hex --bytes --pem --module --type --incomplete --help --version' ;;
        *asn1check) options='--ber --der --hex --pem --bytes --module --type --incomplete --encode --help --version' ;;
        *asn1compile) options='--crate --out --type --use --list --check --tests --incomplete --strict --help --version' ;;
    esac
    local kinds='certificate crl csr public-key private-key rsa-public-key rsa-private-key ec-private-key cms snmp-v1 snmp-v2c ldap ocsp-request ocsp-response tsp-request tsp-response any'
    if [[ $word == -* ]]; then
        mapfile -t COMPREPLY < <(compgen -W "$options" -- "$word")
    elif [[ $1 == *asn1check && " ${COMP_WORDS[*]:1:COMP_CWORD-1} " != *\ [a-z]* ]]; then
        mapfile -t COMPREPLY < <(compgen -W "$kinds" -- "$word")
    elif [[ $1 == *asn1compile && ${COMP_WORDS[COMP_CWORD-1]} == --use ]]; then
        mapfile -t COMPREPLY < <(compgen -W x509 -- "$word")
    else
        mapfile -t COMPREPLY < <(compgen -f -- "$word")
    fi
}

complete -o filenames -F _asn1 asn1show asn1der asn1check asn1compile
