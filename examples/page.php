<!doctype html>
<html lang="en">
<head>
<title>Order</title>
</head>
<body>
<?php
// Prices are in cents.
$price = 1250;
$count = 3;
$shipping = 490;
$total = $price * $count + $shipping;
?>
<h1>Order</h1>
<table>
<tr><td>Lamps</td><td><?= $count ?></td><td><?= $price * $count ?></td></tr>
<tr><td>Shipping</td><td></td><td><?= $shipping ?></td></tr>
<tr><td>Total</td><td></td><td><?= $total, " cents" ?></td></tr>
</table>
</body>
</html>
