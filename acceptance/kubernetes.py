"""Reads samples/origin/kubernetes.yaml as far as that can be done without a cluster: kubernetes.py FILE.

It has to be YAML; its containers run the scripts that lie beside it; one replica is ended before the next begins; the keys are mounted
for reading alone; and each mount has its volume. Where kubectl is there, it reads the file too, and has to know each of its fields: a
field that it doesn't know is gone in what it prints. What a cluster makes of it is not tried.
"""

import json
import os
import shutil
import subprocess
import sys

try:
    import yaml
except ImportError:  # Debian's package, python3-yaml, is for Debian's python
    if sys.executable == "/usr/bin/python3":
        raise
    os.execv("/usr/bin/python3", ["/usr/bin/python3", *sys.argv])


def lacks(wanted, got, path=""):
    """Returns where `wanted` has something that `got` hasn't, or None."""
    if isinstance(wanted, dict):
        if not isinstance(got, dict):
            return path
        return next((it for key in wanted if (it := lacks(wanted[key], got.get(key), f"{path}.{key}"))), None) if wanted else None
    if isinstance(wanted, list):
        if not isinstance(got, list) or len(got) != len(wanted):
            return path
        return next((it for at, value in enumerate(wanted) if (it := lacks(value, got[at], f"{path}[{at}]"))), None)
    return None if wanted == got else path


def main():
    path = sys.argv[1]
    with open(path, encoding="utf-8") as file:
        documents = {it["kind"]: it for it in yaml.safe_load_all(file)}
    assert sorted(documents) == ["Deployment", "PersistentVolumeClaim", "Service"], sorted(documents)
    deployment = documents["Deployment"]["spec"]
    assert deployment["replicas"] == 1 and deployment["strategy"] == {"type": "Recreate"}, "two packagers may work in one folder"
    pod = deployment["template"]["spec"]
    volumes = {it["name"] for it in pod["volumes"]}
    for container in pod["initContainers"] + pod["containers"]:
        for mount in container["volumeMounts"]:
            assert mount["name"] in volumes, f"{container['name']}: no volume {mount['name']}"
            assert mount["name"] != "keys" or mount.get("readOnly"), f"{container['name']} may write the keys"
        script = container["command"][0]
        if script.startswith("/usr/local/lib/tshls/"):
            assert os.access(f"{os.path.dirname(path)}/{os.path.basename(script)}", os.X_OK), f"no script {script}"
    assert deployment["template"]["metadata"]["labels"] == deployment["selector"]["matchLabels"] == documents["Service"]["spec"]["selector"]
    read = "kubectl is not there"
    if shutil.which("kubectl"):
        printed = subprocess.run(["kubectl", "set", "image", "--local", "-f", "-", "-o", "json", "server=checked"],
                                 input=json.dumps(documents["Deployment"]).encode(), capture_output=True, check=False)
        assert printed.returncode == 0, printed.stderr.decode().strip()[:300]
        got = json.loads(printed.stdout)
        pod["containers"][-1]["image"] = "checked"  # it prints what it has changed, and nothing else
        missing = lacks(documents["Deployment"], got)
        assert missing is None, f"kubectl doesn't know {missing}"
        read = "kubectl knows each field of the deployment"
    print(read)


main()
